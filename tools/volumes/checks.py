"""All faults of a volume, in the order in which a check looks (docs/FORMATS.md: bp_check; docs/STATUSES.md): the first is the one
that `tivrenan check` tells. Behind a fault the rest is read as it was meant, so that more of them are found."""
import functools
import hashlib
import re
from dataclasses import dataclass, field

from . import columns as names
from . import profile
from .folder import Unreadable
from .image_lists import OPT, read_images
from .letters import UTF_16, WINDOWS, decoded
from .page_files import read_tiff
from .rule import Rule
from .tables import read_table

# which file a rule speaks of
IS_DAT, IS_OPT, IS_MANIFEST, IS_IMAGE, IS_TEXT, IS_LISTED = range(6)
LONGEST_LINE = 5_000  # bytes of a line that are looked at for what it was meant to be
SMALL = 4096  # bytes of a page file, as tests have them
MOST_TOLD = 1000  # of the lines of a load file that aren't of its form


@dataclass(frozen=True)
class Fault:
    """A broken rule, None where a file can't be read; the path of the file that it is found in, the line there, and what is told of it:
    `kind` is which habit it is, as far as one is known."""

    rule: Rule | None
    file: str
    line: str = ""
    kind: str = ""
    due: str = ""
    found: str = ""


@dataclass(frozen=True)
class Listed:
    """A line of the manifest: its number, digest and path as they are meant, its text, and the path as a check reads it."""

    number: int
    digest: str
    path: str
    line: str
    read_as: str | None


@dataclass
class Read:
    """What was read of a volume as it is meant."""

    columns: list = field(default_factory=list)
    rows: list = field(default_factory=list)  # of each record: number, {column: value}, the line as it stands
    lines: list = field(default_factory=list)  # of each line of the OPT: number, image, path, begins, pages told, the line as it stands
    listed: list | None = None
    records: int = 0


def page_rule(data):
    """The rule that the reader of pages finds in these bytes, None where they are a page. Small ones are kept in mind."""
    return (small_page_rule if len(data) <= SMALL else rule_of_page)(data)


@functools.lru_cache(maxsize=5000)
def small_page_rule(data):
    return rule_of_page(data)


def rule_of_page(data):
    try:
        read_tiff(data)
    except Rule as rule:
        return rule
    return None


def at_line(rule, line):
    return rule.at(line) if rule else None


def shown(line):
    """A line's text for a person, who reads no more of it than a load file or a manifest has in one."""
    return decoded(line[:LONGEST_LINE])[0]


class Check:
    """A check of the files that `read(path, which)` gives. `faults` gives all; `volume` is then what was read.

    `page_rule_of(path, data)` gives the rule that a page file breaks; `find(path)` another path where a file may stand."""

    def __init__(self, read, *words, page_rule_of=None, find=None):
        self.read_file, self.told = read, list(words)
        self.page_rule_of = page_rule_of or (lambda path, data: page_rule(data))
        self.find = find or (lambda path: None)
        self.volume, self.paths, self.named = Read(), [], []

    def faults(self):
        for step in (self.operands, self.dat, self.opt, self.manifest, self.columns, self.labels, self.documents, self.images,
                     self.texts, self.listing, self.digests):
            yield from step()

    def taken(self, path, which, place, line=0):
        """The bytes, or the fault; `place` is the path and the line that it is told of."""
        try:
            return self.read_file(path, which), None
        except Rule as rule:
            other = self.find(path) if rule.number == 54 else None
            kind = "" if other is None else "letter case" if other.casefold() == path.casefold() else "root"
            return None, Fault(at_line(rule, line) if line else rule, *place, kind, other or "", path)
        except Unreadable:
            return None, Fault(None, *place, found=path)

    def meant(self, told, which, place, number):
        """The path that a load file tells, its bytes, and the fault of one of these; behind it path and bytes of the file that is meant."""
        path, data, fault = allowed(told), None, None
        if path is None:
            fault = Fault(Rule(63, line=number), *place, path_kind(told), found=told)
            path = self.find(told)
        else:
            data, fault = self.taken(path, which, place, number)
            path = fault and fault.due or path
        if fault and path and data is None and path != allowed(told):
            data, _ = self.taken(path, which, place, number)
        return path, data, fault

    # ---- what is read

    def operands(self):
        for word in self.told:
            path = allowed(word)
            self.paths.append(path)
            if path is None:
                yield Fault(Rule(63), word, found=word)

    def dat(self):
        if self.paths[0] is None:
            return
        data, fault = self.taken(self.paths[0], IS_DAT, (self.paths[0],))
        if fault:
            yield fault
            return
        try:
            texts = profile.read_dat_lines(data)
        except Rule as rule:
            yield Fault(rule, self.paths[0], kind=decoded(data)[1])
            texts = profile.read_dat_lines(decoded(data)[0].encode("utf-8"))
        yield from self.dat_lines(data, texts)

    def dat_lines(self, data, texts):
        """The records, by the profile where the lines are of its form, else by whatever signs the file has."""
        path = self.paths[0]
        try:
            columns = profile.dat_columns(texts)
        except Rule as rule:
            table = read_table(data)
            yield Fault(rule, path, texts[0] if texts else "", table.signs if texts else "empty")
            self.take_table(table)
            return
        rows, bad = [], 0
        for number, text in enumerate(texts[1:], 2):
            try:
                values = profile.dat_line(text, number, len(columns))
                rows.append((number - 1, dict(zip(columns, values)), text))
            except Rule as rule:
                bad += 1
                if bad <= MOST_TOLD:
                    yield Fault(rule, path, text, dat_kind(text, len(columns)), str(len(columns)), str(text.count(profile.BETWEEN) + 1))
        self.volume.columns, self.volume.rows, self.volume.records = columns, rows, len(texts) - 1
        if bad:
            self.take_table(read_table(data))

    def take_table(self, table):
        self.volume.columns, self.volume.records = table.columns, len(table.rows)
        self.volume.rows = [(number, dict(zip(table.columns, row)), " | ".join(row)) for number, (_, row) in enumerate(table.rows, 1)]

    def opt(self):
        if self.paths[1] is None:
            return
        data, fault = self.taken(self.paths[1], IS_OPT, (self.paths[1],))
        if fault:
            yield fault
            return
        meant = read_images(data)
        is_other = meant.form != OPT or meant.letters == UTF_16
        bad = 0
        for number, line in enumerate(profile.lines_in(data), 1):
            try:
                self.volume.lines.append((number, *profile.opt_line(line, number), shown(line)))
            except Rule as rule:
                bad += 1
                if bad <= (1 if is_other else MOST_TOLD):
                    kind = meant.form if meant.form != OPT else meant.letters if is_other else opt_kind(line)
                    yield Fault(rule, self.paths[1], shown(line), kind)
        if bad:
            self.volume.lines = [(image.line, image.id, image.volume, image.path, image.begins, False, False, image.told, image.text)
                                 for image in meant.images]

    def manifest(self):
        if len(self.paths) < 3 or self.paths[2] is None:
            return
        data, fault = self.taken(self.paths[2], IS_MANIFEST, (self.paths[2],))
        if fault:
            yield fault
            return
        lines = data.split(b"\n")
        if not lines[-1]:
            lines.pop()
            is_ended = True
        else:
            is_ended = False
        self.volume.listed, letters, bad = [], decoded(data)[1], 0
        for number, line in enumerate(lines, 1):
            strict = None if number == len(lines) and not is_ended else strict_listed(line)
            if strict is None:
                bad += 1
                if bad <= (1 if letters == UTF_16 else MOST_TOLD):
                    kind = letters if letters == UTF_16 else "unended" if strict_listed(line) else manifest_kind(line)
                    yield Fault(Rule(115, line=number), self.paths[2], shown(line), kind)
            if letters != UTF_16:
                self.volume.listed.append(meant_listed(number, line, strict))
        if letters == UTF_16:
            self.volume.listed = [meant_listed(number, line.encode(), None) for number, line in enumerate(decoded(data)[0].splitlines(), 1)]

    # ---- what the load files say together

    def columns(self):
        """BEGDOC and ENDDOC stand for the producer's own names where these are others."""
        columns = self.volume.columns
        found = names.map_columns(columns)
        if columns and ("BEGDOC" not in columns or "ENDDOC" not in columns or len(set(columns)) < len(columns)):
            twice = sorted({column for column in columns if columns.count(column) > 1})
            missing = [name for name in ("BEGDOC", "ENDDOC") if name not in columns]
            due = [f"{name} in place of {columns[found[name]]}" if name in found else name for name in missing]
            kind = "twice" if not missing else "other names" if all(name in found for name in missing) else ""
            yield Fault(Rule(110), self.paths[0], ", ".join(columns), kind, "; ".join(due), ", ".join(twice))
        for name in ("BEGDOC", "ENDDOC", "PAGECOUNT", "TEXTPATH"):
            if name not in columns and name in found:
                for _, values, _ in self.volume.rows:
                    values[name] = values.get(columns[found[name]], "")

    def labels(self):
        shape = before = None
        for number, image, *_, text in self.volume.lines:
            digits = re.search(r"[0-9]*\Z", image)[0]
            if not 1 <= len(digits) <= 18:
                yield Fault(Rule(111, line=number), self.paths[1], text, "no digits" if not digits else "digits", found=image)
                shape = None
                continue
            now, value = (image[: -len(digits)], len(digits)), int(digits)
            if shape is not None and (value != before + 1 or now != shape):
                due = f"{shape[0]}{before + 1:0{shape[1]}}"
                kind = gap_kind(shape, now, before + 1, value)
                yield Fault(Rule(112, before + 1, value, number), self.paths[1], text, kind, due, image)
            shape, before = now, value

    def documents(self):
        """Breaks, and then counts, over the documents of both files that are meant as the same."""
        if not self.volume.columns or self.paths[1] is None:
            return
        lines, rows = self.volume.lines, self.volume.rows
        starts = [place for place, line in enumerate(lines) if line[4]]
        documents = [range(start, end) for start, end in zip(starts, [*starts[1:], len(lines)])]
        pairs = []
        yield from self.breaks(documents, lines, rows, pairs)
        for document, values in pairs:
            yield from self.counts(document, lines, values)

    def breaks(self, documents, lines, rows, pairs):
        path = self.paths[1]
        if lines and not lines[0][4]:
            yield Fault(Rule(113, line=lines[0][0]), path, lines[0][-1], "no break")
        places = {}
        for at, (_, values, _) in enumerate(rows):
            places.setdefault(values.get("BEGDOC"), at)
        at = 0
        for document in documents:
            first, last = lines[document[0]], lines[document[-1]]
            begins, ends = (rows[at][1].get(name) for name in ("BEGDOC", "ENDDOC")) if at < len(rows) else (None, None)
            if (first[1], last[1]) != (begins, ends):
                kind = "ends" if first[1] == begins else "begins" if at < len(rows) else "no record"
                due = f"{begins} to {ends}" if at < len(rows) else ""
                yield Fault(Rule(113, line=first[0]), path, first[-1], kind, due, f"{first[1]} to {last[1]}")
            if first[1] != begins and places.get(first[1], -1) >= at:
                at = places[first[1]]
            if at < len(rows) and first[1] == rows[at][1].get("BEGDOC"):
                pairs.append((document, rows[at][1]))
                at += 1
            elif first[1] != begins and first[1] not in places and at < len(rows) and not any(
                    line[4] and line[1] == begins for line in lines[document[0] :]):
                pairs.append((document, None))
                at += 1
            else:
                pairs.append((document, None))
        if self.volume.records > len(documents):
            left = rows[at] if at < len(rows) else None
            yield Fault(Rule(113, line=len(lines) + 1), path, "", "records left", left[1].get("BEGDOC", "") if left else "",
                        f"{self.volume.records} records, {len(documents)} documents")

    def counts(self, document, lines, values):
        for place in document:
            number, told, text, is_first = lines[place][0], lines[place][7], lines[place][-1], place == document[0]
            if told and not (is_first and told.isdigit() and int(told) == len(document)):
                yield Fault(Rule(114, line=number), self.paths[1], text, "field 7" if is_first else "field 7 behind",
                            str(len(document)) if is_first else "", told)
            count = (values or {}).get("PAGECOUNT", "")
            if is_first and count not in ("", str(len(document))):
                yield Fault(Rule(114, line=number), self.paths[1], text, "PAGECOUNT", str(len(document)), count)

    # ---- the files that are named

    def images(self):
        self.named = [(self.paths[0], "the DAT"), (self.paths[1], "the OPT")]
        for number, _, _, told, *_, text in self.volume.lines:
            path, data, fault = self.meant(told, IS_IMAGE, (self.paths[1], text), number)
            self.named.append((path, "the image"))
            if fault:
                yield fault
            rule = self.page_rule_of(path, data) if data is not None else None
            if rule:
                yield Fault(rule.at(number), self.paths[1], text, kind_of_file(data), found=path)

    def texts(self):
        for number, values, text in self.volume.rows:
            told = values.get("TEXTPATH")
            if not told:
                continue
            path, _, fault = self.meant(told, IS_TEXT, (self.paths[0], text), number)
            self.named.append((path, "the text"))
            if fault:
                yield fault

    def listing(self):
        if self.volume.listed is None:
            return
        listed = {each.read_as for each in self.volume.listed if each.read_as is not None}
        meant = {each.path.casefold(): each for each in self.volume.listed}
        for place, (path, what) in enumerate(self.named):
            if path is None or path in listed:
                continue
            kind, other = unlisted_kind(path, listed, meant)
            if kind == "line":
                continue  # that line was told of before
            yield Fault(Rule(117, place), self.paths[2], "", kind, what, other or path)

    def digests(self):
        for each in self.volume.listed or []:
            place = (self.paths[2], each.line)
            path = each.path if each.read_as is None else each.read_as
            data, fault = self.taken(path, IS_LISTED, place, each.number)
            if fault and path != each.path:
                yield Fault(fault.rule, *place, "CR LF", found=each.path)
                data, fault = self.taken(each.path, IS_LISTED, place, each.number)
                fault = None
            if fault and each.path:
                yield fault
            hashed = digest_like(data, each.digest) if data is not None else None
            if hashed is not None and hashed != each.digest.lower():
                yield Fault(Rule(116, line=each.number), *place, due=hashed, found=each.path)


def allowed(told):
    """The path as a check reads it, None where it is refused."""
    try:
        return profile.path_of(told)
    except Rule:
        return None


# ---- lines of a manifest


def strict_listed(line):
    """Digest and path of a line of the form of the profile, else None."""
    try:
        shape = re.fullmatch("([0-9a-f]{64})  (.*)", line.decode("utf-8"), re.DOTALL)
        return (shape[1], profile.path_of(shape[2])) if shape else None
    except (UnicodeDecodeError, Rule):
        return None


MEANT = re.compile(r"\ufeff?\\?([0-9A-Fa-f]{32,128})[ \t,;]+\*?(.+?)\r?", re.DOTALL)
MEANT_LAST = re.compile(r"\ufeff?\"?(.+?)\"?[ \t,;]+\"?([0-9A-Fa-f]{32,128})\"?\r?", re.DOTALL)


def meant_listed(number, line, strict):
    """The line as it is meant; without a path where nothing can be taken of it."""
    text = shown(line)
    found, last = MEANT.fullmatch(text), MEANT_LAST.fullmatch(text)
    digest, path = (found[1], found[2]) if found else (last[2], last[1]) if last else ("", "")
    path = allowed(path) or ""
    if strict and (not strict[1].endswith("\r") or len(line) > LONGEST_LINE):
        digest, path = strict
    return Listed(number, digest, path, text, strict[1] if strict else None)


def digest_like(data, digest):
    """The digest of these bytes by the algorithm that has so many digits, in small letters."""
    name = {32: "md5", 40: "sha1", 64: "sha256", 128: "sha512"}.get(len(digest))
    return hashlib.new(name, data, usedforsecurity=False).hexdigest() if name else None


def manifest_kind(line):
    text = shown(line).rstrip("\r")
    found = MEANT.fullmatch(text)
    if text.startswith("\ufeff") or line.startswith(profile.MARK):
        return "mark"
    if not found:
        return "reversed" if MEANT_LAST.fullmatch(text) else ""
    digest, path = found.groups()
    if len(digest) != 64:
        return {32: "MD5", 40: "SHA-1", 128: "SHA-512"}.get(len(digest), "digest")
    if digest != digest.lower():
        return "capitals"
    if re.match(r"[0-9a-f]{64} \*", text):
        return "star"
    return "path" if re.match("[0-9a-f]{64}  ", text) and allowed(path) is None else "blanks"


def unlisted_kind(path, listed, meant):
    """How a file that isn't listed is listed after all, and where."""
    if path + "\r" in listed:
        return "CR LF", path
    other = meant.get(path.casefold())
    if other is not None and other.path:
        return ("line", other.line) if other.path == path else ("letter case", other.path)
    tail = next((each for each in meant.values() if each.path and path.casefold().endswith("/" + each.path.casefold())), None)
    return ("root", tail.path) if tail else ("", "")


# ---- kinds of what isn't as it is due


def dat_kind(text, columns):
    values = text.split(profile.BETWEEN)
    if "\r" in text:
        return "CR"
    if len(values) == 1 or not values[0].startswith(profile.QUOTE) or not values[-1].endswith(profile.QUOTE):
        return "newline"
    if any(value.count(profile.QUOTE) > 2 for value in values):
        return "quote"
    return "count" if len(values) != columns else ""


def opt_kind(line):
    try:
        line.decode("utf-8")
    except UnicodeDecodeError:
        return WINDOWS
    fields = shown(line).split(",")
    if not 3 <= len(fields) <= 7:
        return "fields"
    if re.sub("[^a-z]", "", fields[0].lower()) in ("imageid", "imagekey", "alias", "documentid"):
        return "names"
    if any(field not in ("", "Y") for field in fields[3:6]):
        return "break"
    return "pages" if len(fields) == 7 and not profile.DIGITS.fullmatch(fields[6]) and fields[6] else ""


def gap_kind(shape, now, due, value):
    if now[0] != shape[0]:
        return "prefix"
    if value == due or now[1] != shape[1]:
        return "width"
    return "twice" if value == due - 1 else "back" if value < due else "missing"


def path_kind(told):
    if re.match("[A-Za-z]:", told):
        return "drive"
    if told.startswith(("\\\\", "//")):
        return "share"
    if told.startswith(("/", "\\")):
        return "front"
    return "up" if ".." in told.replace("\\", "/").split("/") else ""


def kind_of_file(data):
    """What a file that is no page is."""
    for head, kind in ((b"\xff\xd8\xff", "JPEG"), (b"%PDF", "PDF"), (b"\x89PNG", "PNG"), (b"II+\0", "BigTIFF"), (b"MM\0+", "BigTIFF")):
        if data.startswith(head):
            return kind
    return "" if data else "empty"
