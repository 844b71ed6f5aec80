"""How a part of the tests goes: the words that it is given, people in windows of their own at an office's page, and what several
parts have a window be: small, in the system's colours, slow to be answered."""
import contextlib
import json
import sys

from person import Person, check

COLOURS = dict(dark=("prefers-color-scheme", "dark"), contrast=("prefers-contrast", "more"), forced=("forced-colors", "active"))
SMALL = (800, 600)


def given():
    """A scratch folder, the folder for pictures, and the program or None."""
    return (*sys.argv[1:4], None)[:3]


@contextlib.contextmanager
def window(office, key=None, kind=Person, **more):
    """Somebody at the page of an office, let in by their key where one is given. At the end it is looked whether the browser or its
    policy refused anything, and the window is closed."""
    person = kind(office.folder, **more)
    try:
        if key is not None:
            person.enter(office.url, key)
        yield person
        check("nothing that the browser or its policy refused", not person.log, person.log)
    finally:
        person.close()


def small_window(office, key):
    return window(office, key, size=SMALL)


def in_colours(person, *names):
    """Goes through settings of the system's colours, all or those that are named, and back to none."""
    for name in names or COLOURS:
        feature, value = COLOURS[name]
        person("Emulation.setEmulatedMedia", features=[dict(name=feature, value=value)])
        yield name
    person("Emulation.setEmulatedMedia", features=[])


def cut_off(person, *more):
    """Parts of the window that are wider than their place."""
    parts = ", ".join(("body", "nav", "#bar", "aside", "aside form", "aside fieldset", ".head", *more))
    return person.js(f"[...document.querySelectorAll({json.dumps(parts)})]"
                     ".filter((it) => it.scrollWidth > it.clientWidth).map((it) => it.id || it.tagName)")


def fits(person, dialog):
    """Whether a dialog stands in the window, and no part of it is wider than its place."""
    return person.js(f"""(() => {{
      const it = document.getElementById({dialog!r})
      const on = it.getBoundingClientRect()
      return on.left >= 0 && on.right <= innerWidth && on.top >= 0 && on.bottom <= innerHeight
        && [it, ...it.children].every((part) => part.scrollWidth <= part.clientWidth || part.clientWidth === 0)
    }})()""")


def slow(person, milliseconds):
    """From now on each answer of a desk takes so much longer."""
    person.stage("window.whole ??= window.fetch; window.fetch = async (...words) => {"
                 f" await new Promise((go) => setTimeout(go, {milliseconds})); return whole(...words) }}")


def as_before(person):
    """Requests go again as the browser has them go."""
    person.stage("window.fetch = window.whole")
