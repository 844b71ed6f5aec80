"""By keys alone: a receiver opens what was granted, looks at files, compares digests, saves all; and what the page says where
something is amiss."""
import os
import subprocess

from door import HALE, NOBODYS, VOLUME, volume_files
from frame import as_before, slow
from office import ELLIS
from person import check, read_saved

# the browser's own folder stands for one that a person picks: its window isn't the page's
PICK = """(async () => {
  const root = await navigator.storage.getDirectory()
  window.showDirectoryPicker = async () => root
})()"""
PICKED = """(async () => {
  const names = []
  for await (const name of (await navigator.storage.getDirectory()).keys()) names.push(name)
  return names
})()"""


def enter(person, office, key):
    person.go(office.url)
    person.fill("Your key", key)
    person.push("Open")
    person.until("document.getElementById('received_said').textContent !== ''")


def try_opening(person, office, line):
    enter(person, office, HALE)
    said = person.text("received_said")
    check("what was granted is told", said.startswith("✓ 1 production was granted"), said)
    person.has_focus("the name of the volume has the focus", "Name of its volume")
    person.state("receiver-granted", looks=True)
    person.around("the room of a receiver")
    person.pick("Production", "R-1")
    person.fill("Name of its volume", "vol009")
    person.says("a volume that isn't there", lambda: person.push("Open"), "✗", "received_said")
    person.state("receiver-refused")
    person.fill("Name of its volume", "vol001")
    person.says("a volume is opened", lambda: person.push("Open"), "VOL001 is open.", "received_said")
    files = volume_files(os.path.join(office.folder, "out"))
    check("with all its files", f"{len(files)} files" in person.text("volume_head"), person.text("volume_head"))
    sent = "The line that the office sent by another way"
    for text, words, name in (("0" * 64, "✗ It isn’t the manifest", "other"), (line, "✓ It is the manifest", "same")):
        person.fill(sent, text)
        check(f"digests are compared: {words}", person.text("same_sum").startswith(words), person.text("same_sum"))
        person.state(f"receiver-{name}-digest")
    person.around("an open volume")


def try_files(person, office):
    data = [os.path.basename(path) for path in volume_files(os.path.join(office.folder, "out")) if os.path.dirname(path).endswith("DATA")]
    for folder, names in (("DATA", sorted(data)), ("TEXT/0001", ["ABC00000001.TXT"]), ("IMAGES/0001", ["ABC00000001.TIF"])):
        person.pick("Folder", f"{VOLUME}/{folder}")
        for name in names:
            person.says(f"{name} is looked at", lambda name=name: person.push(name), f"{name} has the digest", "received_said")
            check("and the file is shown", person.text("shown_name") == f"{VOLUME}/{folder}/{name}", person.text("shown_name"))
        person.state(f"receiver-{folder.split('/')[0].lower()}", looks=folder.startswith("IMAGES"))
    person.until("(({ scrollHeight, clientHeight }) => scrollHeight > clientHeight)(document.getElementById('shown_file'))")
    person.reach("The file")
    person.key("PageDown")
    person.until("document.getElementById('shown_file').scrollTop > 0")
    check("and keys read on in it", True)


def try_saving(person, office):
    files = volume_files(os.path.join(office.folder, "out"))
    all_of_them = f"{len(files)} of {len(files)} files are saved, each with the digest that the manifest tells."
    os.mkdir(into := os.path.join(office.folder, "downloads"))
    person.save_into(into)
    person.says("all is saved as one archive", lambda: person.push("Save all as one archive"), all_of_them, "received_said")
    read_saved(path := os.path.join(into, f"{VOLUME}.tar"))
    subprocess.run(["tar", "-xf", path, "-C", into], check=True)
    check("which has the volume, byte for byte", volume_files(into) == files)
    person.stage(PICK)
    person.says("all is saved into a folder", lambda: person.push("Save all into a folder"), all_of_them, "received_said")
    check("where the volume stands", person.stage(PICKED) == [VOLUME], person.stage(PICKED))
    slow(person, 1500)
    person.push("Save all as one archive")
    person.until("document.getElementById('received_said').textContent.includes('Escape or Stop stops.')")
    person.state("receiver-saving")
    person.says("and saving is stopped", lambda: person.push("Stop"), "Stopped. No archive was made", "received_said")
    as_before(person)
    person.says("what was granted is listed again", lambda: person.push("List again"), "1 production was granted", "received_said")
    person.gather()
    person.push("Leave")
    person.until("document.getElementById('enter')?.checkVisibility() === true")
    check("Leave forgets the key", person.js("document.getElementById('key').value") == "")


def try_receiver(person, office, line):
    try_opening(person, office, line)
    try_files(person, office)
    try_saving(person, office)
    person.end_part("a receiver")
    enter(person, office, NOBODYS)
    said = person.text("received_said")
    check("who was granted nothing is told so", said == "✓ Nothing was granted to you yet.", said)
    person.state("receiver-nothing-granted")
    person.end_part("a receiver of nothing")


# ---- what is amiss

CUT_OFF = """window.whole ??= window.fetch
window.fetch = (path, request) => request.method === 'POST' ? Promise.reject(new TypeError('cut off')) : whole(path, request)"""
DAMAGED = """window.whole ??= window.fetch
window.fetch = (path, request) => !path.endsWith('/docs/12/pages/2') ? whole(path, request)
  : Promise.resolve(new Response(new Uint8Array(100), { headers: { 'Content-Type': 'image/tiff' } }))"""


def try_amiss(person, office):
    """In a room that was entered before: a page that can't be drawn, a call that was cut off, no desk."""
    person.stage(DAMAGED)
    person.open(12)
    person.says("a page that can't be drawn", lambda: person.key("ArrowRight"), "This page can’t be drawn")
    person.state("error-page")
    as_before(person)
    person.open(4)
    person.stage(CUT_OFF)
    unsure = "It isn’t known whether a call of yours on document 4"
    person.says("a call that may have been made or not", lambda: person.key("y"), unsure)
    person.state("error-unsure")
    as_before(person)
    person.does(lambda: person.key("l"), "as it stands now")
    office.close_desk()
    person.says("no desk", lambda: person.key("l"), "No desk is open")
    person.until("!document.getElementById('stale').hidden", 60)
    check("and the list says that it isn't told anew", "No desk is open" in person.text("stale"), person.text("stale"))
    person.state("error-no-desk", looks=True)
    person.end_part("what is amiss")


EMPTY = """window.whole ??= window.fetch
const none = JSON.stringify({ a: 1, b: 0, line: 0, name: 'NoDocument', rule: 10 })
const as = { status: 404, headers: { 'Content-Type': 'application/json' } }
window.fetch = (path, request) => path.endsWith('/states/1') ? Promise.resolve(new Response(none, as)) : whole(path, request)"""


def try_empty(person, office):
    person.go(office.url)
    person.stage(EMPTY)
    person.fill("Your key", ELLIS)
    person.push("Open")
    person.until("document.getElementById('said').textContent.includes('The matter has no documents yet.')")
    check("a matter without documents is told", True)
    person.state("error-no-documents")
    as_before(person)
