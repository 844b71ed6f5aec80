"""Somebody who has a keyboard alone. Nothing is pressed, chosen or typed but by Chromium's events of keys; scripts read and change
nothing. After each press it is looked whether what has the focus stands in sight."""
import base64
import json
import os
import re

from frame import SMALL, in_colours
from person import CTRL, SHIFT, Person, check, controls

SIZE = (1500, 1000)
# roles of what is pressed, chosen or filled
USED = ("button", "textbox", "combobox", "checkbox", "radio", "listbox", "DisclosureTriangle")
# what differs from one control of a kind to the next
GAP = re.compile(r"“.*?”|\d[\d,.]*")
KINDS = [re.compile(kind) for kind in (r"^(Document \.\.): .*", r"^(Box \.\.) .*", r"^(Free) .*", r"^(ABC-\.\.)(:| to) .*",
                                       r"^(Put \.\.) box.*", r"^(\.\.), takes .*", r"^(all \.\. in \.\. document)s?$")]


def plain(name):
    """The name of a control without that."""
    name = GAP.sub("..", name)
    for kind in KINDS:
        name = kind.sub(r"\1", name)
    return name


def is_called(found, name):
    """Whether something has a name; two points at its end stand for more."""
    return found.startswith(name[:-2]) if name.endswith("..") else found == name


# what a hand on a mouse or a script would do
NOT_BY_KEYS = re.compile(r"\.(click|focus|select|blur|dispatchEvent|requestSubmit|submit|scroll\w*|showModal|close)\("
                         r"|[^=!<>]=(?![=>])(?!\s*>)")

# After each key: what has the focus has a line around it, and stands before all else at some place of it. No mouse has an event.
WATCHED = """window.unseen = []
window.pointed = []
for (const kind of ['pointerdown', 'mousedown', 'wheel', 'touchstart']) addEventListener(kind, () => pointed.push(kind), true)
window.seeFocus = () => {
  const it = document.activeElement
  if (it === null || it === document.body) return 'nothing has the focus'
  const name = it.id || it.getAttribute('aria-label') || it.name || it.textContent.trim().slice(0, 30) || it.tagName
  if (!it.checkVisibility({ visibilityProperty: true })) return `${name} isn't shown`
  const { outlineStyle, outlineWidth } = getComputedStyle(it)
  const hasLine = outlineStyle !== 'none' && parseFloat(outlineWidth) >= 2
  if (!it.matches(':focus-visible') || !hasLine) return `${name} has no line around it`
  const on = it.getBoundingClientRect()
  const [left, right] = [Math.max(on.left, 0), Math.min(on.right, innerWidth)]
  const [top, bottom] = [Math.max(on.top, 0), Math.min(on.bottom, innerHeight)]
  const isAt = (x, y) => it.contains(document.elementFromPoint(left + x * (right - left), top + y * (bottom - top)))
  if (![[0.5, 0.5], [0.05, 0.5], [0.95, 0.5], [0.5, 0.1], [0.5, 0.9]].some((at) => isAt(...at))) return `${name} is out of sight`
  return ''
}
addEventListener('keyup', ({ key }) => requestAnimationFrame(() => {
  const why = seeFocus()
  if (why !== '') unseen.push(`${key}: ${why}`)
}), true)"""

# All that can have the focus, in the order in which it stands, of a group of choices one: how each is called, and which one has it.
STOPS = """(() => {
  const root = [...document.querySelectorAll('dialog[open]')].at(-1) ?? document
  const all = [...root.querySelectorAll('button, input, select, textarea, summary, a[href], [tabindex="0"]')]
    .filter((it) => !it.disabled && it.checkVisibility({ visibilityProperty: true }))
  const isOne = (it) => it.type !== 'radio' || it.checked
    || (it.form.elements[it.name].value === '' && it.form.elements[it.name][0] === it)
  window.stops = all.filter(isOne)
  const isOfGroup = (it, has) => has.type === 'radio' && it.name === has.name && it.form === has.form
  window.stopOf = (has) => stops.findIndex((it) => it === has || isOfGroup(it, has))
  const labelOf = ({ labels }) => labels?.length > 0 && Array.from(labels[0].childNodes)
    .filter((it) => !it.matches?.('select, textarea')).map((it) => it.textContent).join('')
  const nameOf = (it) => (it.getAttribute('aria-label') ?? (labelOf(it) || it.textContent)).replace(/\\s+/g, ' ').trim()
  return [stops.map(nameOf), stopOf(document.activeElement)]
})()"""
AT = "stopOf(document.activeElement)"  # the same, later


class Hands(Person):
    """Who works by keys. `shots` is where pictures of the states go."""

    def __init__(self, folder, shots, size=SIZE):
        super().__init__(folder, size=size)
        self("Page.addScriptToEvaluateOnNewDocument", source=WATCHED)
        self("Emulation.setFocusEmulationEnabled", enabled=True)  # as the window in front has it
        self.shots, self.met, self.used, self.amiss = shots, set(), set(), []

    # ---- what no keyboard does

    def refuse(self, *_):
        raise RuntimeError("that is no key")

    mouse = click = type = choose = refuse

    def js(self, text):
        """Reads; a script that would press, choose or change something is refused."""
        if NOT_BY_KEYS.search(re.sub(r"'[^']*'|\"[^\"]*\"|const [\w{},\[\] ]+ =|window\.stops =", "", text)):
            raise RuntimeError(f"that reads more than it may: {text}")
        return super().js(text)

    def stage(self, text):
        return super().js(text)

    def go(self, url):
        self.gather()
        self.stage("window.is_left = true")
        self.under_way.clear()
        self("Page.navigate", url=url)
        self.until("window.is_left === undefined && document.readyState === 'complete'")

    # ---- keys

    def open(self, number):
        self.key("o")
        self.write(str(number))
        self.key("Enter")
        self.until(f"document.getElementById('title').textContent === 'Document {number}' && document.activeElement.id === 'sheet'")

    def to_page(self):
        """The page has the focus: a field is gone to and left."""
        self.key("o")
        self.key("Escape")

    def write(self, text):
        """Types a text, a key for each sign."""
        self.keys(*text)

    def focused(self):
        """Role and name of what has the focus, by Chromium's tree."""
        it = self("Runtime.evaluate", expression="document.activeElement")["result"]["objectId"]
        node = self("Accessibility.getPartialAXTree", objectId=it, fetchRelatives=False)["nodes"][0]
        value = lambda name: " ".join(str(node.get(name, {}).get("value", "")).split())
        return value("role"), value("name")

    def reach(self, *names, most=150):
        """Presses Tab, or Shift and Tab, until a control of one of these names has the focus, at most so many times."""
        self.most_of_the_way(names)
        passed = []
        for _ in range(most):
            role, at = self.focused()
            if any(is_called(at, name) for name in names):
                self.used.add((role, plain(at)))
                return
            passed.append(at)
            self.key("Tab")
        raise RuntimeError(f"{most} times Tab never come to {names}, but to {passed}")

    def most_of_the_way(self, names):
        """As many times Tab at once as there seem to be stops up to the nearest control; afterwards it is looked where that led."""
        stops, at = super().js(STOPS)
        found = [k for k, stop in enumerate(stops) if any(is_called(stop, name) for name in names)]
        if at >= 0 and found:
            by = min((k - at for k in found), key=abs)
            self.keys(*["Tab"] * abs(by), modifiers=SHIFT * (by < 0))

    def is_at(self, name):
        return is_called(self.focused()[1], name)

    def push(self, name, key="Enter"):
        """A button, or what else a key presses."""
        self.reach(name)
        self.key(key)

    def fill(self, name, text):
        """A text in a field, in the place of what stood there."""
        self.reach(name)
        self.key("a", CTRL)
        self.write(text)
        if text == "":
            self.key("Delete")

    def pick(self, name, text):
        """Another choice of a list, by its arrows."""
        self.reach(name)
        options = self.js("Array.from(document.activeElement.options, (it) => it.text)")
        wanted = next(k for k, option in enumerate(options) if option.startswith(text))
        for _ in range(2 * len(options)):
            by = wanted - self.js("document.activeElement.selectedIndex")
            if by == 0:
                return
            self.key("ArrowDown" if by > 0 else "ArrowUp")
        raise RuntimeError(f"arrows never come to {text} of {name}: {options}")

    def answer(self, name, *others):
        """One of a group of choices: Tab comes to the one that is chosen or to the first, and the arrows go to others."""
        self.reach(name, *others)
        for _ in (name, *others):
            self.used.add(("radio", plain(self.focused()[1])))
            if self.is_at(name):
                break
            self.key("ArrowDown")
        if not self.js("document.activeElement.checked"):
            self.key(" ")

    def tick(self, name, wanted=True):
        """A choice by itself, taken or left by Space."""
        self.reach(name)
        if self.js("document.activeElement.checked") != wanted:
            self.key(" ")

    # ---- where the focus is

    def does(self, work, words, place="said", seconds=60):
        super().does(work, words, place, seconds)
        self.see(words)

    def see(self, what):
        """What has the focus is in sight, also once the page has done what a key began."""
        why = super().js("new Promise((go) => requestAnimationFrame(() => requestAnimationFrame(() => go(seeFocus()))))")
        if why:
            super().js(f"unseen.push({json.dumps(f'{what}: {why}')})")

    def has_focus(self, what, name):
        """A check of what has the focus."""
        check(what, self.is_at(name), self.focused())

    def focus_comes_back(self, what, work):
        """A check that what has the focus has it again behind some work, as where a dialog was opened and closed."""
        before = self.focused()
        work()
        self.see(what)
        after = self.focused()
        check(f"the focus comes back: {what}", before == after, (before, after))

    def gather(self):
        """Keeps what was seen amiss in a page, which is gone with it."""
        self.amiss += super().js("[...window.unseen?.splice(0) ?? [], ...window.pointed?.splice(0) ?? []]")

    def end_part(self, what):
        """Checks what was seen of the focus since the last such check."""
        self.gather()
        amiss = self.amiss[:8]
        check(f"{what}: what has the focus was in sight after each key, and no event of a mouse came", amiss == [], amiss)
        self.amiss = []

    def around(self, what):
        """Tab goes once to all that can have the focus, in the order in which it stands; and Shift and Tab back."""
        names, start = super().js(STOPS)
        for back in (False, True):
            gone = []
            while len(gone) < len(names) + 3 and start not in gone:
                self.key("Tab", SHIFT * back)
                gone.append(super().js(AT))
            gone = [k for k in gone if k >= 0]  # the window itself may have its turn
            step = -1 if back else 1
            due = [(start + step * (k + 1)) % len(names) for k in range(len(names))]
            check(f"{what}: {'Shift and Tab go back' if back else 'Tab goes'} through {len(names)} stops in order", gone == due,
                  [(names[k], names[d]) for k, d in zip(gone, due) if k != d][:4] or (len(gone), len(due)))
        self.unseen_but_window()

    def unseen_but_window(self):
        """Between the last stop and the first one the window itself may have the focus."""
        super().js("(() => { window.unseen = unseen.filter((it) => !it.startsWith('Tab: nothing')) })()")

    # ---- states

    def state(self, name, looks=False):
        """A state of the page: each control has a name; a picture of it, with `looks` in other colours and a small window, too."""
        self.rest(0.3)
        self.see(name)
        found = controls(self)
        lacking = [role for role, called, _ in found if called == ""]
        check(f"{name}: every control has a name", lacking == [], lacking)
        self.met.update((role, plain(called)) for role, called, is_on in found if is_on and role in USED)
        self.picture(name)
        if looks:
            for colours in in_colours(self, "dark", "forced"):
                self.picture(f"{name}-{colours}")
            self.window(SMALL)
            self.picture(f"{name}-800x600")
            self.window(SIZE)

    def window(self, size):
        self("Emulation.setDeviceMetricsOverride", width=size[0], height=size[1], deviceScaleFactor=1, mobile=False)
        self.rest(0.5)  # a page that fits its place is drawn anew
        self.whole()

    def picture(self, name):
        """All of the window."""
        self.whole()
        with open(os.path.join(self.shots, f"state-{name}.png"), "wb") as file:
            file.write(base64.b64decode(self("Page.captureScreenshot", format="png")["data"]))


