#!/usr/bin/env python3
"""A receiver at the page, while `deliver` has its one door open and nginx knows several desks: keys of all who come are
answered; what was granted is listed, its files are looked at, compared with their digests and saved, and are the volume's byte
for byte. Over the program alone: a stand-in writes no volume.

    receiver.py SCRATCH SHOTS [PROGRAM]     pictures of the screens go into the folder SHOTS
"""
import hashlib
import os
import subprocess
from contextlib import closing

from door import HALE, NOBODYS, VOLUME, Door, volume_files
from frame import as_before, given, slow, window
from office import ELLIS, LEAD, MARLOW, wait_for
from person import check, finish, grey_of, nameless, read_saved


def try_ways(office):
    """Reviewers and receivers, whichever desk nginx would have them at."""
    for key, path in ((LEAD, "/docs/1"), (ELLIS, "/docs/1"), (MARLOW, "/docs/1"), (HALE, "/granted"), (NOBODYS, "/granted")):
        status, _, body = office.request(key, "GET", "/desk" + path)
        check(f"{key} is answered while deliver runs", status == 200, (status, body[:200]))
    ways = {office.request(f"key {k}", "GET", "/desk/granted")[0] for k in range(12)}
    check("and twelve wrong keys are told so by a desk", ways == {401}, ways)


def enter(person, office, key):
    person.go(office.url)
    person.click("#key")
    person.type(key)
    person.key("Enter")
    person.until("!document.getElementById('received').hidden")


def open_volume(person, name):
    person.js("document.querySelector('#open_volume').elements.volume.value = ''")
    person.click("#open_volume [name=volume]")
    person.type(name)
    person.key("Enter")


def try_looking(person, office, line, shots):
    enter(person, office, HALE)
    person.until("document.querySelectorAll('#open_volume option').length === 1")
    check("what was granted is listed", person.text("received_said").startswith("✓ 1 production was granted"), person.text("received_said"))
    listed = person.js("document.querySelector('#open_volume option').textContent")
    check("with its numbers", listed.startswith("R-1: numbers 1 to "), listed)
    person.says("a volume that isn't there", lambda: open_volume(person, "vol009"), "✗", "received_said")
    person.says("the volume is opened", lambda: open_volume(person, "vol001"), "VOL001 is open.", "received_said")
    files = volume_files(os.path.join(office.folder, "out"))
    check("with all its files and its labels", f"{len(files)} files, pages ABC00000001 to ABC000000" in person.text("volume_head"), person.text("volume_head"))
    due = hashlib.sha256(files[f"{VOLUME}/MANIFEST.TXT"]).hexdigest()
    check("and its manifest's digest", person.text("manifest_sum") == due and due in line, person.text("manifest_sum"))
    for text, words in ((line.strip(), "✓ It is the manifest"), ("0" * 64, "✗ It isn’t the manifest")):
        person.js("document.getElementById('sent_sum').value = ''")
        person.click("#sent_sum")
        person.type(text)
        check(f"the line that was sent is compared: {words}", person.text("same_sum").startswith(words), person.text("same_sum"))
    folders = person.js("Array.from(document.querySelectorAll('#folder option'), (it) => it.value)")
    check("its folders", folders == [f"{VOLUME}/{name}" for name in ("IMAGES/0001", "TEXT/0001", "DATA")] + [VOLUME], folders)
    person.says("an image is looked at", lambda: person.click("#files button"), "ABC00000001.TIF has the digest", "received_said")
    person.until("!document.getElementById('shown_image').hidden")
    try_canvas(person, files[f"{VOLUME}/IMAGES/0001/ABC00000001.TIF"], office.folder)
    person.shot(os.path.join(shots, "receiver.png"))
    person.choose("#folder", "VOL001/DATA")
    person.says("a load file is looked at", lambda: person.click("#files button:last-child"), "has the digest", "received_said")
    check("as text", "ABC00000001" in person.text("shown_text"), person.text("shown_text")[:80])
    person.shot(os.path.join(shots, "receiver-text.png"))


def try_canvas(person, image, folder):
    path = os.path.join(folder, "image.tif")
    with open(path, "wb") as file:
        file.write(image)
    pnm = subprocess.run(["tifftopnm", "-quiet", path], capture_output=True, check=True).stdout
    _, sides, rows = pnm.split(b"\n", 2)
    width, height = map(int, sides.split())
    stride = (width + 7) // 8
    lines = [f"{int.from_bytes(rows[k * stride:(k + 1) * stride], 'big'):0{stride * 8}b}"[:width] for k in range(height)]
    across, down, shown = person.js(
        "(async () => { const it = document.getElementById('shown_image'); const { data } = it.getContext('2d').getImageData(0, 0, it.width, it.height);"
        " const digest = new Uint8Array(await crypto.subtle.digest('SHA-256', data.filter((_, i) => i % 4 === 0)));"
        " return [it.width, it.height, Array.from(digest, (byte) => byte.toString(16).padStart(2, '0')).join('')] })()")
    check(f"its pixels are the image's, {across} by {down} cells", shown == hashlib.sha256(grey_of(width, height, lines, across, down)).hexdigest())


def try_archive(person, office):
    """By keys alone."""
    into = os.path.join(office.folder, "downloads")
    os.mkdir(into)
    person.save_into(into)
    person.tab_to("#open_volume [name=volume]")
    person.type("VOL001")
    person.says("the volume is opened by keys", lambda: person.key("Enter"), "VOL001 is open.", "received_said")
    person.tab_to("#as_archive")
    person.says("all is saved as one archive", lambda: person.key("Enter"), "each with the digest that the manifest tells", "received_said")
    read_saved(path := os.path.join(into, f"{VOLUME}.tar"))
    subprocess.run(["tar", "-xf", path, "-C", into], check=True)
    check("which tar unpacks to the volume, byte for byte", volume_files(into) == volume_files(os.path.join(office.folder, "out")))
    told = subprocess.run(["sha256sum", "--quiet", "--strict", "-c", f"{VOLUME}/MANIFEST.TXT"], cwd=into, check=False)
    check("and sha256sum finds whole", told.returncode == 0)


# The browser's own folder stands for one that a person picks: nobody is there to pick it.
PICK = """(async () => {
  const root = await navigator.storage.getDirectory()
  window.showDirectoryPicker = async () => root
})()"""
SAVED = """(async () => {
  const found = {}
  const into = async (folder, before) => {
    for await (const [name, it] of folder) {
      if (it.kind === 'directory') await into(it, `${before}${name}/`)
      else found[before + name] = Array.from(new Uint8Array(await crypto.subtle.digest('SHA-256', await (await it.getFile()).arrayBuffer())),
        (byte) => byte.toString(16).padStart(2, '0')).join('')
    }
  }
  await into(await navigator.storage.getDirectory(), '')
  return found
})()"""


def try_folder(person, office):
    person.js(PICK)
    files = volume_files(os.path.join(office.folder, "out"))
    due = {path: hashlib.sha256(data).hexdigest() for path, data in files.items()}
    person.says("all is saved into a folder", lambda: person.click("#into_folder"), f"{len(files)} of {len(files)} files are saved", "received_said")
    check("byte for byte", person.js(SAVED) == due)
    asked = len(person.requests)
    person.says("once more it fetches nothing", lambda: person.click("#into_folder"), f"{len(files)} of {len(files)} files are saved", "received_said")
    check("as each file stands there with its digest", len(person.requests) == asked, len(person.requests) - asked)
    # a file that comes otherwise than the manifest says isn't kept
    person.js("""(async () => {
      for await (const name of (await navigator.storage.getDirectory()).keys()) await (await navigator.storage.getDirectory()).removeEntry(name, { recursive: true })
      window.whole = window.fetch
      window.fetch = async (path, request) => {
        const answer = await whole(path, request)
        return path.endsWith('ABC00000002.TIF') ? new Response(new Uint8Array([1, 2, 3]), { headers: answer.headers }) : answer
      }
    })()""")
    person.says("a file with another digest is told", lambda: person.click("#into_folder"), f"{len(files) - 1} of {len(files)} files are saved", "received_said")
    check("by its name", "ABC00000002.TIF isn’t as the manifest has it" in person.text("not_saved"), person.text("not_saved"))
    saved = person.js(SAVED)
    check("and isn't kept", {path: sum for path, sum in due.items() if "ABC00000002.TIF" not in path} == saved)
    person.says("no archive is made of it", lambda: person.click("#as_archive"), "No archive was made", "received_said")
    slow(person, 200)
    person.js("heard.received_said.length = 0; document.getElementById('as_archive').click()")
    person.until("heard.received_said.some((text) => text.includes('Escape or Stop stops'))")
    check("it says how far it is", True)
    person.says("Escape stops it", lambda: person.key("Escape"), "Stopped.", "received_said")
    as_before(person)


def try_others(person, office):
    enter(person, office, NOBODYS)
    person.until("document.getElementById('received_said').textContent !== ''")
    check("who was granted nothing is told so", person.text("received_said") == "✓ Nothing was granted to you yet.", person.text("received_said"))
    check("a reviewer works at the same door", True)
    person.enter(office.url, ELLIS)
    check("and sees the documents", person.text("count") == "12 documents", person.text("count"))
    office.close_desk()
    office.start("serve", "2", "100000")
    for port in office.ports:
        wait_for(port, office.desk)
    enter(person, office, HALE)
    person.until("document.getElementById('received_said').textContent !== ''")
    check("where no door is open for receivers, that is said", "door for receivers isn’t open" in person.text("received_said"), person.text("received_said"))


def main():
    scratch, shots, program = given()
    if program is None:
        print("NOT TRIED: the program isn't there, and a stand-in writes no volume")
        return
    with closing(Door(scratch, program, desks=2)) as office:
        line = office.deliver()
        try_ways(office)
        with window(office) as person:
            try_looking(person, office, line, shots)
            check("every control has a name", nameless(person) == [], nameless(person))
            try_archive(person, office)
            try_folder(person, office)
            try_others(person, office)
    finish("a receiver at the page")


main()
