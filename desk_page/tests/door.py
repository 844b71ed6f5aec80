"""The door at which a receiver takes a volume: the program's, or a stand-in's over a small volume that is written here. Hale has
the grant of it, Osei none."""
import hashlib
import os
import shutil
import signal
import subprocess
import sys

from batch import COLUMN, WORDS
from office import BATCH, ELLIS, HERE, LEAD, MARLOW, Office, wait_for
from person import scan_path

HALE, NOBODYS = "the key of Hale", "the key of Osei"
VOLUME = "VOL001"
FEW = 4  # documents of the stand-in's volume, the first page of each


class Door(Office):
    """A matter with a production, and its one door open; nginx knows two desks."""

    def open_desk(self):
        self.start("serve", "2", "100000")
        for port in self.ports:
            wait_for(port, self.desk)

    def take_in_all(self):
        super().take_in_all()
        for name, key in (("Hale", HALE), ("Osei", NOBODYS)):
            self.take_in(name, "Receiver", key)
        call = dict(responsive=True, treatment="Produce", designation="")
        for number in range(1, 13):
            self.ask(ELLIS, "POST", f"/docs/{number}/call", dict(call, treatment="Withhold-AC") if number == 3 else call)
        entry = dict(date="2019", author="Ng", recipients="Ortiz", description="Letter to counsel")
        self.ask(ELLIS, "POST", "/docs/3/entry", entry)
        self.ask(MARLOW, "POST", "/docs/3/confirm", {})

    def start(self, *words):
        self.desk = subprocess.Popen([self.program, *words], cwd=self.folder, stdout=subprocess.PIPE, text=True,
                                     preexec_fn=lambda: signal.signal(signal.SIGINT, signal.SIG_DFL))

    def deliver(self):
        """The line that `produce` printed; the door is open then."""
        self.close_desk()
        line = self.run("produce", "R-1", VOLUME, "ABC", "8", "1", "12")
        with open(os.path.join(self.folder, "grants.csv"), "w", encoding="ascii") as file:
            file.write("4,R-1\n")
        self.start("deliver", "100000", "grants.csv")
        wait_for(self.ports[0], self.desk)
        return line


class StandInDoor(Office):
    """The same by a stand-in, over a volume of a few pages as they were scanned."""

    def open_desk(self):
        out = os.path.join(self.folder, "out")
        self.line = write_volume(out)
        words = [sys.executable, os.path.join(HERE, "stand_in_door.py"), str(self.ports[0]), BATCH, LEAD, out]
        self.desk = subprocess.Popen(words, cwd=self.folder, stdout=subprocess.PIPE, text=True,
                                     preexec_fn=lambda: signal.signal(signal.SIGINT, signal.SIG_DFL))
        wait_for(self.ports[0], self.desk)

    def take_in_all(self):
        for name, key in (("Hale", HALE), ("Osei", NOBODYS)):
            self.take_in(name, "Receiver", key)

    def deliver(self):
        return self.line


def write_volume(out):
    """Writes the stand-in's volume; gives the line that the office would send."""
    root = os.path.join(out, VOLUME)
    for folder in ("IMAGES/0001", "TEXT/0001", "DATA"):
        os.makedirs(os.path.join(root, folder))
    value = lambda text: f"þ{text}þ"
    rows = [value("BEGDOC") + "\x14" + value("TITLE")]
    for number in range(1, FEW + 1):
        label = f"ABC{number:08}"
        shutil.copy(scan_path(number, 1), os.path.join(root, "IMAGES", "0001", label + ".TIF"))
        put(root, f"TEXT/0001/{label}.TXT", " ".join(word[-1] for word in WORDS[number - 1][0]))
        rows.append(value(label) + "\x14" + value(COLUMN["TITLE"][number - 1]))
    put(root, f"DATA/{VOLUME}.DAT", "".join(row + "\r\n" for row in rows))
    files = volume_files(out)
    manifest = "".join(f"{hashlib.sha256(data).hexdigest()}  {path}\n" for path, data in sorted(files.items()))
    put(root, "MANIFEST.TXT", manifest)
    return f"production R-1 manifest {hashlib.sha256(manifest.encode()).hexdigest()}"


def put(root, path, text):
    with open(os.path.join(root, path), "w", encoding="utf-8", newline="") as file:
        file.write(text)


def volume_files(folder):
    """The files of a volume by their paths."""
    found = {}
    for at, _, names in os.walk(os.path.join(folder, VOLUME)):
        for name in names:
            path = os.path.join(at, name)
            with open(path, "rb") as file:
                found[os.path.relpath(path, folder)] = file.read()
    return found
