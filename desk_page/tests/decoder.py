#!/usr/bin/env python3
"""The page's reader of TIFF files beside libtiff (netpbm's tifftopnm), in a headless Chromium, pixel by pixel: every page
file of the repository, the pages of bench/pages.sh plain and in Group 4 by tiffcp in five forms, the forms of
trials/tiff_forms.py, and trials/hostile_files.py's with the refusals that are due. Then strips of codes by chance, which are
read or refused as trials/t6_model.py does, and damaged files: what the page reads of one, libtiff reads too, and the refusals
are the model's or, where the program is given, its own.

    decoder.py SCRATCH [PROGRAM]
"""
import functools
import hashlib
import http.server
import os
import random
import subprocess
import sys
import threading

from chromium import Chromium

HERE = os.path.dirname(os.path.abspath(__file__))
TOP = os.path.dirname(os.path.dirname(HERE))
TRIALS = os.path.join(TOP, "trials")
sys.path.insert(0, TRIALS)
sys.dont_write_bytecode = True
import t6_model  # noqa: E402

NAMES = {70: "T6ShortData", 71: "T6EarlyEnd", 72: "T6Extension", 73: "T6BadCode", 74: "T6BadPlace"}
SEED, DAMAGED, BY_CHANCE = 7, 400, 1500
MOST_TOLD = 20
FORMS = {"g4": [], "rows": ["-r", "1"], "strips": ["-r", "64"], "big-endian": ["-B"], "low-first": ["-f", "lsb2msb"]}


class Files(http.server.SimpleHTTPRequestHandler):
    """The page's scripts and the files that are tried, from two folders."""

    def translate_path(self, path):
        part, _, name = path.lstrip("/").partition("/")
        places = {"page": os.path.join(HERE, "..", "page"), "files": self.directory}
        return os.path.join(places[part], name) if part in places else os.path.join(HERE, part)

    def log_message(self, *_words):
        pass


def page_digest(path):
    """The page as libtiff reads it: the SHA-256 of a raw PBM with its unused bits 0, or None."""
    told = subprocess.run(["tifftopnm", "-quiet", "-byrow", path], capture_output=True, check=False)
    if told.returncode != 0 or not told.stdout.startswith(b"P4\n"):
        return None
    _, sides, rows = told.stdout.split(b"\n", 2)
    width, height = map(int, sides.split())
    stride, unused = (width + 7) // 8, -width % 8
    if unused:
        mask = int.from_bytes(b"\xff" * (stride - 1) + bytes([0xFF << unused & 0xFF]), "big")
        rows = b"".join((int.from_bytes(rows[at : at + stride], "big") & mask).to_bytes(stride, "big")
                        for at in range(0, stride * height, stride))
    return hashlib.sha256(b"P4\n%d %d\n" % (width, height) + rows).hexdigest()


class Trial:
    def __init__(self, folder, window):
        self.folder, self.window = folder, window
        # `alone` counts what libtiff refuses and the page reads: a tag that says nothing of the pixels
        self.failed, self.same, self.refused, self.alone = 0, 0, 0, 0

    def read(self, name):
        return self.window.js(f"pageOf({name!r})")

    def fail(self, name, why):
        self.failed += 1
        if self.failed <= MOST_TOLD:
            print(f"NOT AS DUE: {name}: {why}", flush=True)

    def whole(self, name):
        """A sound file: the page's pixels are libtiff's."""
        told = self.read(name)
        if "refused" in told:
            self.fail(name, told["refused"])
        elif told["digest"] != page_digest(os.path.join(self.folder, name)):
            self.fail(name, "other pixels than libtiff's")
        else:
            self.same += 1
        return told

    def due(self, name, line):
        """A file whose answer is known: `refused NUMBER NAME LINE A B`, or `burned ..` where it is read."""
        told = self.read(name)
        words = line.split()
        wanted = [words[2], int(words[4]), int(words[5])] if words[0] == "refused" else None
        if told.get("refused") != wanted:
            self.fail(name, f"{told.get('refused')} in place of {wanted}")
        elif wanted:
            self.refused += 1
        else:
            self.same += 1

    def damaged(self, name, due):
        """A damaged file, with the refusal that is due where it is known."""
        told = self.read(name)
        refused = told.get("refused")
        if due is not None and refused != due[0]:
            self.fail(name, f"{refused} in place of {due[0]}")
        elif refused:
            self.refused += 1
        elif (page := page_digest(os.path.join(self.folder, name))) is None:
            self.alone += 1
        elif page != told["digest"]:
            self.fail(name, "other pixels than libtiff's")
        else:
            self.same += 1


# ---- the files


def repository_files():
    told = subprocess.run(["git", "ls-files", "-z"], cwd=TOP, capture_output=True, text=True, check=True).stdout
    return [os.path.join(TOP, path) for path in told.split("\0") if path.lower().endswith((".tif", ".tiff"))]


def link(folder, path):
    name = path[len(TOP) + 1 :].replace("/", "-")
    os.symlink(path, os.path.join(folder, name))
    return name


def copies(folder, name):
    """A page in Group 4 by tiffcp, in some forms."""
    for form, words in FORMS.items():
        copy = f"{form}-{name}"
        subprocess.run(["tiffcp", "-c", "g4", *words, name, copy], cwd=folder, check=True, capture_output=True)
        yield copy


def small_page(folder):
    """A cut of the letter, as a raw PBM: text enough for every mode, and small enough for the slow model."""
    page = subprocess.run(["tifftopnm", "-quiet", os.path.join(TOP, "examples", "letter.tif")], capture_output=True, check=True)
    cut = ["pamcut", "-left", "300", "-top", "700", "-width", "301", "-height", "80"]
    return subprocess.run(cut, input=page.stdout, capture_output=True, check=True, cwd=folder).stdout


def damage(data, chance):
    """Some bytes or bits of a file changed, or its end cut off."""
    data = bytearray(data)
    way = chance.randrange(5)
    if way == 0:
        return bytes(data[: chance.randrange(len(data))])
    for _ in range(chance.choice((1, 1, 2, 5))):
        # half of the changes fall among the first bytes, where the head and the directory may stand
        at = chance.randrange(min(len(data), 250)) if way < 3 else chance.randrange(len(data))
        data[at] = chance.randrange(256) if way % 2 else data[at] ^ (1 << chance.randrange(8))
    return bytes(data)


def strip_file(plain, strip, sides=None):
    """The plain page file with this strip of Group 4 in place of its own, and with these sides."""
    head = bytearray(plain[:186])
    head[54] = 4  # Compression
    head[126:130] = len(strip).to_bytes(4, "little")
    if sides:
        width, height = (side.to_bytes(4, "little") for side in sides)
        head[18:22], head[30:34], head[114:118] = width, height, height
    return bytes(head) + strip


def strip_by_chance(chance):
    """Codes of modes and short runs as they come, most of a colour that may follow."""
    bits, black = "", False
    for _ in range(chance.randrange(1, 25)):
        mode = chance.choice([*t6_model.MODE_CODES, 0, 0, "horizontal"])
        bits += t6_model.MODE_CODES[mode]
        if mode == "horizontal":
            for colour in (black, not black):
                codes = t6_model.RUN_CODES[colour != (chance.randrange(12) == 0)]
                bits += codes[chance.choice((0, 0, 1, 2, 3, 5, 8, 64))]
        elif mode != "pass":
            black = black != (chance.randrange(6) > 0)
    bits += chance.choice(("", "1" * 8, t6_model.END_OF_BLOCK, t6_model.EXTENSION, "0" * 9))
    bits += "0" * (-len(bits) % 8)
    return int(bits, 2).to_bytes(len(bits) // 8, "big")


def by_model(strip, width, height):
    """The digest of the page, or the refusal."""
    try:
        lines = t6_model.read(strip, width, height)
    except t6_model.Refused as refused:
        number, row, bit = refused.args
        return None, [NAMES[number], row, bit]
    rows = b"".join(t6_model.packed_row(line, width) for line in lines)
    return hashlib.sha256(b"P4\n%d %d\n" % (width, height) + rows).hexdigest(), None


def damaged_strip(plain, chance):
    """A strip of Group 4 with a few of its bytes changed, as a page file with the refusal that the model finds."""
    width, lines = t6_model.lines_of(plain)
    strip = bytearray(t6_model.code(lines, width))
    if chance.randrange(3) == 0:
        del strip[chance.randrange(len(strip)) :]
    for _ in range(chance.randrange(3)):
        strip[chance.randrange(len(strip) or 1) : 1] = b""
        if strip:
            strip[chance.randrange(len(strip))] = chance.choice((0, 1, 2, 0xFF, chance.randrange(256)))
    return strip_file(plain, bytes(strip)), by_model(bytes(strip), width, len(lines))[1]


def refusal_of(program, folder, name):
    """What `burn` says of the file: the refusal, or None where it is read."""
    told = subprocess.run([program, "burn", name, "0", "0", "1", "1", "x.tif", "g4"], cwd=folder, capture_output=True, text=True,
                          check=False).stdout.split()
    return [told[2], int(told[4]), int(told[5])] if told[:1] == ["refused"] else None


def put(folder, name, data):
    with open(os.path.join(folder, name), "wb") as file:
        file.write(data)
    return name


# ---- the trials


def try_pages(trial):
    for path in repository_files():
        trial.whole(link(trial.folder, path))
    print(f"{trial.same} page files of the repository", flush=True)


def try_bench_pages(trial):
    made = subprocess.run([os.path.join(TOP, "bench", "pages.sh"), trial.folder], capture_output=True, text=True, check=False)
    if made.returncode != 0:
        print(f"the pages of bench/pages.sh: not tried: {made.stderr.strip()}")
        return
    for name in ("letter", "form", "halftone", "dithered", "random", "white", "large"):
        trial.whole(name + ".tif")
        for copy in copies(trial.folder, name + ".tif"):
            if name != "large" or copy.startswith("g4"):
                took = trial.whole(copy).get("took", 0)
                if copy.startswith("g4"):
                    print(f"{name + ' in Group 4':24}{took:8.1f} ms", flush=True)
            os.remove(os.path.join(trial.folder, copy))


def try_forms(trial, page):
    told = subprocess.run([os.path.join(TRIALS, "tiff_forms.py"), trial.folder], input=page, capture_output=True, check=True)
    names = [name + ".tif" for name in told.stdout.decode().split()]
    for name in names:
        trial.whole(name)
    print(f"{len(names)} forms of trials/tiff_forms.py", flush=True)


def try_hostile(trial):
    told = subprocess.run([os.path.join(TRIALS, "hostile_files.py"), trial.folder], capture_output=True, text=True, check=True)
    for line in told.stdout.splitlines():
        name, due, _ = line.split("\t")
        trial.due(name, due)
    print(f"{len(told.stdout.splitlines())} files of trials/hostile_files.py", flush=True)


def plain_of(page):
    words = [sys.executable, os.path.join(TRIALS, "plain_page.py"), "300"]
    return subprocess.run(words, input=page, capture_output=True, check=True).stdout


def try_by_chance(trial, plain):
    chance = random.Random(SEED)
    refused = 0
    for k in range(BY_CHANCE):
        sides = chance.choice((1, 7, 8, 20, 70)), chance.choice((1, 2, 3))
        strip = strip_by_chance(chance)
        digest, due = by_model(strip, *sides)
        told = trial.read(put(trial.folder, "by-chance.tif", strip_file(plain, strip, sides)))
        if told.get("refused") != due or told.get("digest") != digest:
            trial.fail(f"strip {strip.hex()} of {sides}", f"{told} in place of {due or digest}")
        refused += due is not None
    trial.refused += refused
    trial.same += BY_CHANCE - refused
    print(f"{BY_CHANCE} strips of codes by chance: {refused} refused, {BY_CHANCE - refused} read, as by trials/t6_model.py", flush=True)


def try_damaged(trial, plain, program):
    chance = random.Random(SEED)
    put(trial.folder, "small.tif", plain)
    sources = [os.path.join(trial.folder, name) for name in ["small.tif", *copies(trial.folder, "small.tif")]]
    contents = [open(path, "rb").read() for path in sources]
    before = trial.refused, trial.same
    for k in range(DAMAGED):
        name = f"damaged-{k}.tif"
        if k % 2:
            data, due = damaged_strip(plain, chance)
            due = [due]
        else:
            data, due = damage(chance.choice(contents), chance), None
        put(trial.folder, name, data)
        if program:
            by_program = [refusal_of(program, trial.folder, name)]
            if due not in (None, by_program):
                trial.fail(name, f"the program has {by_program}, and the model {due}")
            due = by_program
        trial.damaged(name, due)
    refused, read = trial.refused - before[0], trial.same - before[1]
    by = "the program" if program else "trials/t6_model.py, of the damaged strips"
    print(f"{DAMAGED} damaged files: {refused} refused, {read} read as libtiff does, {trial.alone} that it refuses; refusals as by {by}", flush=True)


def main():
    scratch, program = sys.argv[1], sys.argv[2] if len(sys.argv) > 2 else None
    folder = os.path.join(scratch, "files")
    os.mkdir(folder)
    server = http.server.ThreadingHTTPServer(("127.0.0.1", 0), functools.partial(Files, directory=folder))
    threading.Thread(target=server.serve_forever, daemon=True).start()
    window = Chromium(scratch)
    try:
        window.go(f"http://127.0.0.1:{server.server_port}/decoder.html")
        window.until("window.pageOf !== undefined")
        trial = Trial(folder, window)
        page = small_page(folder)
        try_pages(trial)
        try_bench_pages(trial)
        try_forms(trial, page)
        try_hostile(trial)
        plain = plain_of(page)
        try_by_chance(trial, plain)
        try_damaged(trial, plain, program)
        for line in window.log:
            trial.fail("the window", line)
        print(f"the reader of pages: {trial.same} files read as is due, {trial.refused} refused, {trial.failed} not as due")
        sys.exit(trial.failed > 0)
    finally:
        window.close()
        server.shutdown()


main()
