#!/usr/bin/env python3
"""Volumes for `tivrenan check`, each with the line that it has to print: the example volume; the same damaged in twelve ways;
volumes that other tools wrote (Python's csv, netpbm, libtiff) and that are right; and habits of other vendors that a check
refuses, each by its name.

Words: the folder that has the volume VOL001, and the program. Ends with status 1 where a line or a status is another. With
--model in place of the program, trials/check_model.py is asked.

Needs sha256sum, Debian's netpbm and libtiff-tools.
"""
import csv
import hashlib
import io
import os
import struct
import subprocess
import sys
import tempfile

HERE = os.path.dirname(os.path.abspath(__file__))
MODEL = [sys.executable, os.path.join(HERE, "check_model.py"), "check", "."]
QUOTE, BETWEEN, MARK = "\u00fe", "\u0014", "\ufeff"


def read_files(folder):
    """Each file below a folder, by its path."""
    found = {}
    for at, _, names in os.walk(folder):
        for name in names:
            path = os.path.join(at, name)
            with open(path, "rb") as file:
                found[os.path.relpath(path, folder)] = file.read()
    return found


def write_files(folder, files):
    for path, data in files.items():
        full = os.path.join(folder, path)
        os.makedirs(os.path.dirname(full), exist_ok=True)
        with open(full, "wb") as file:
            file.write(data)


def piped(*words, data=b""):
    """What a program writes that is given these bytes."""
    return subprocess.run(words, input=data, stdout=subprocess.PIPE, stderr=subprocess.DEVNULL, check=True).stdout


# ---- the example volume, damaged

DAT, OPT = "VOL001/DATA/VOL001.DAT", "VOL001/DATA/VOL001.OPT"
LOG, MANIFEST = "VOL001/DATA/VOL001-LOG.CSV", "VOL001/MANIFEST.TXT"


def image(number):
    return f"VOL001/IMAGES/0001/ABC{number:08}.TIF"


class Damage:
    """The files of a volume, one of which is then another."""

    def __init__(self, files):
        self.files = dict(files)

    def lines(self, path):
        return self.files[path].decode().splitlines(keepends=True)

    def put_lines(self, path, lines):
        self.files[path] = "".join(lines).encode()
        return self.files

    def change_line(self, path, number, was, now):
        lines = self.lines(path)
        assert was in lines[number - 1]
        lines[number - 1] = lines[number - 1].replace(was, now, 1)
        return self.put_lines(path, lines)

    def change_byte(self, path, at):
        data = bytearray(self.files[path])
        data[at] ^= 1
        self.files[path] = bytes(data)
        return self.files

    def listed_at(self, path):
        """The line of the manifest that has a path."""
        return [line[66:].rstrip() for line in self.lines(MANIFEST)].index(path) + 1


def scale_of(data):
    """Where a page file of the product has its horizontal resolution: a byte that no reader of pixels looks at."""
    count = struct.unpack_from("<H", data, 8)[0]
    fields = [struct.unpack_from("<HHII", data, 10 + 12 * k) for k in range(count)]
    return next(value for tag, _, _, value in fields if tag == 282)


def damages(files):
    """Name, files and the line that is due."""
    new = lambda: Damage(files)
    lines = new().lines(OPT)
    yield "a line of the OPT gone", new().put_lines(OPT, lines[:4] + lines[5:]), "refused 112 CheckGap 5 5 6"
    yield "a label changed", new().change_line(OPT, 9, "ABC00000009,", "ABC00000090,"), "refused 112 CheckGap 9 9 90"
    at = new().listed_at(image(3))
    yield ("a byte of an image changed", new().change_byte(image(3), scale_of(files[image(3)])),
           f"refused 116 DigestDiffers {at} 0 0")
    text = "VOL001/TEXT/0001/ABC00000004.TXT"
    yield "a byte of a text changed", new().change_byte(text, 5), f"refused 116 DigestDiffers {new().listed_at(text)} 0 0"
    yield "a byte of the log changed", new().change_byte(LOG, 100), f"refused 116 DigestDiffers {new().listed_at(LOG)} 0 0"
    digest = new().lines(MANIFEST)[9][:64]
    yield ("a digest in capitals", new().change_line(MANIFEST, 10, digest, digest.upper()),
           "refused 115 ManifestShape 10 0 0")
    yield "an image missing", {path: data for path, data in files.items() if path != image(12)}, "refused 54 FileAbsent 12 3 0"
    records = new().lines(DAT)
    yield ("two records of the DAT swapped", new().put_lines(DAT, records[:3] + [records[4], records[3]] + records[5:]),
           "refused 113 CheckBreaks 6 0 0")
    yield ("PAGECOUNT wrong", new().change_line(DAT, 2, f"{QUOTE}3{QUOTE}", f"{QUOTE}4{QUOTE}"),
           "refused 114 CheckCount 1 0 0")
    yield ("an OPT without breaks", new().put_lines(OPT, [line.replace(",Y,", ",,") for line in lines]),
           "refused 113 CheckBreaks 1 0 0")
    in_utf_16 = {**files, DAT: files[DAT].decode().encode("utf-16")}
    yield "a DAT in UTF-16", in_utf_16, "refused 51 DatEncoding 0 0 0"
    grey = piped("pnmtotiff", "-none", data=b"P5 8 8 255\n" + bytes(range(64)))
    yield "an image of grey", {**files, image(2): grey}, "refused 85 TiffMeaning 2 258 0"


# ---- volumes of other tools

def page(*options):
    """A page of black and white, by netpbm in Group 4, and by libtiff's tiffcp in the form that its options ask for."""
    rows = b"".join(bytes(((k * 37 + j) % 256) & 0xAA for j in range(25)) for k in range(60))
    plain = piped("pnmtotiff", "-g4", "-xresolution=300", "-yresolution=300", data=b"P4 200 60\n" + rows)
    if not options:
        return plain
    with tempfile.TemporaryDirectory() as folder:
        write_files(folder, {"in.tif": plain})
        subprocess.run(["tiffcp", *options, "in.tif", "page.tif"], cwd=folder, check=True, stderr=subprocess.DEVNULL)
        return read_files(folder)["page.tif"]


def pages_in_one():
    """Three pages in one file."""
    with tempfile.TemporaryDirectory() as folder:
        write_files(folder, {"in.tif": page()})
        subprocess.run(["tiffcp", "in.tif", "in.tif", "in.tif", "page.tif"], cwd=folder, check=True, stderr=subprocess.DEVNULL)
        return read_files(folder)["page.tif"]


class Volume:
    """A volume as another vendor's tool might write it: three documents of 2, 1 and 3 pages."""

    root, ending, image, mark = "PROD01", "\r\n", page(), ""
    counts, between, encoding = [2, 1, 3], "\\", "utf-8"
    columns = ["BEGDOC", "ENDDOC", "PAGECOUNT", "TEXTPATH", "CUSTODIAN"]

    def label(self, number):
        return f"XYZ_{number + 100:06}"

    def image_path(self, number):
        return f"{self.root}/IMAGES/001/{self.label(number)}.tif"

    def text_path(self, first):
        return f"{self.root}/TEXT/001/{self.label(first)}.txt"

    def named(self, path):
        return path.replace("/", self.between)

    def opt_line(self, number, place, count):
        begins = place == 0
        return [self.label(number), self.root, self.named(self.image_path(number)), "Y" if begins else "", "", "", str(count) if begins else ""]

    def record(self, first, count):
        return {"BEGDOC": self.label(first), "ENDDOC": self.label(first + count - 1), "PAGECOUNT": str(count),
                "TEXTPATH": self.named(self.text_path(first)), "CUSTODIAN": "Ng, A."}

    def dat(self, records):
        out = io.StringIO()
        writer = csv.writer(out, delimiter=BETWEEN, quotechar=QUOTE, quoting=csv.QUOTE_ALL, lineterminator=self.ending)
        writer.writerow(self.columns)
        writer.writerows([record[column] for column in self.columns] for record in records)
        return self.mark + out.getvalue()

    def opt(self, lines):
        out = io.StringIO()
        csv.writer(out, lineterminator=self.ending).writerows(lines)
        return out.getvalue()

    def manifest(self, files):
        return "".join(f"{hashlib.sha256(data).hexdigest()}  {path}\n" for path, data in files.items())

    def files(self):
        """All files; the load files and the manifest last."""
        files, lines, records, number = {}, [], [], 0
        for count in self.counts:
            records.append(self.record(number, count))
            files[self.text_path(number)] = b"words of the document\r\n"
            for place in range(count):
                lines.append(self.opt_line(number, place, count))
                files[self.image_path(number)] = self.image
                number += 1
        files[f"{self.root}/DATA/load.dat"] = self.dat(records).encode(self.encoding)
        files[f"{self.root}/DATA/load.opt"] = self.opt(lines).encode()
        files[f"{self.root}/manifest.txt"] = self.manifest(files).encode()
        return files

    def words(self):
        return [f"{self.root}/DATA/load.dat", f"{self.root}/DATA/load.opt", f"{self.root}/manifest.txt"]


class ByCsv(Volume):
    """Written by Python's csv, with a byte order mark, and lines that end LF."""
    mark, ending = MARK, "\n"
    due = "checked documents 3 images 6 files 11"


class OtherColumns(Volume):
    """Columns in another order, none for texts or counts; an OPT of four fields; paths with /; no manifest."""
    columns, between = ["CUSTODIAN", "ENDDOC", "BEGDOC"], "/"
    due = "checked documents 3 images 6 files 0"

    def opt_line(self, number, place, count):
        return super().opt_line(number, place, count)[:4]

    def words(self):
        return super().words()[:2]


class OtherImages(Volume):
    """Images by libtiff: big-endian, bits from the low end, strips of eight rows."""
    image = page("-B", "-f", "lsb2msb", "-r", "8", "-c", "g4")
    due = "checked documents 3 images 6 files 11"


class NumbersAlone(Volume):
    """Labels of digits alone, from 0; counts with zeros at their front; paths that begin with a point."""
    due = "checked documents 3 images 6 files 11"

    def label(self, number):
        return f"{number:07}"

    def opt_line(self, number, place, count):
        line = super().opt_line(number, place, count)
        return [*line[:2], ".\\" + line[2], *line[3:6], line[6] and line[6].zfill(3)]


class BySha256sum(Volume):
    """The manifest by sha256sum itself, with a file that no load file names."""
    due = "checked documents 3 images 6 files 12"

    def manifest(self, files):
        files[f"{self.root}/READ ME.txt"] = b"produced by the other side\n"
        with tempfile.TemporaryDirectory() as folder:
            write_files(folder, files)
            return subprocess.run(["sha256sum", *files], cwd=folder, capture_output=True, check=True, text=True).stdout


# ---- habits of other vendors that a check refuses

class WindowsPage(Volume):
    """A DAT in the code page of Windows."""
    encoding, due = "cp1252", "refused 51 DatEncoding 0 0 0"


class PipesAndCarets(Volume):
    """A DAT with ^ for the quote and | between values."""
    due = "refused 50 DatShape 1 0 0"

    def dat(self, records):
        return super().dat(records).replace(QUOTE, "^").replace(BETWEEN, "|")


class NewlineInValue(Volume):
    """A DAT with a newline in a value, where one is to be the sign (R)."""
    due = "refused 50 DatShape 2 0 0"

    def record(self, first, count):
        return {**super().record(first, count), "CUSTODIAN": "Ng\nOrtiz"}


class OtherNames(Volume):
    """A DAT with other names for its columns."""
    due = "refused 110 CheckColumns 0 0 0"

    def dat(self, records):
        return super().dat(records).replace("BEGDOC", "Begin Bates").replace("ENDDOC", "End Bates")


class HeadedOpt(Volume):
    """An OPT with a line of names at its head."""
    due = "refused 53 OptShape 1 0 0"

    def opt(self, lines):
        return super().opt([["ImageID", "Volume", "Path", "DocBreak", "FolderBreak", "BoxBreak", "Pages"], *lines])


class Lfp(Volume):
    """An LFP file in place of an OPT."""
    due = "refused 53 OptShape 1 0 0"

    def opt(self, lines):
        return "".join(f"IM,{label},{'D' if begins else ''},0,@{volume};{path};2\r\n" for label, volume, path, begins, *_ in lines)


class Drives(Volume):
    """Paths with a drive."""
    due = "refused 63 PathRefused 1 0 0"

    def named(self, path):
        return "D:\\" + super().named(path)


class FromTheRoot(Volume):
    """Paths with a separator at their front."""
    due = "refused 63 PathRefused 1 0 0"

    def named(self, path):
        return "\\" + super().named(path)


class FromTheVolume(Volume):
    """Paths that begin inside the volume's folder."""
    due = "refused 54 FileAbsent 1 3 0"

    def named(self, path):
        return super().named(path.removeprefix(f"{self.root}/"))


class Suffixes(Volume):
    """A number for the document, and pages behind a point: each document begins at 1 again."""
    due = "refused 112 CheckGap 3 3 1"
    labels = ["XYZ_000001.0001", "XYZ_000001.0002", "XYZ_000002.0001", "XYZ_000003.0001", "XYZ_000003.0002", "XYZ_000003.0003"]

    def label(self, number):
        return self.labels[number]


class Letters(Volume):
    """Pages that were put in later have a letter behind their number."""
    due = "refused 111 CheckLabel 2 0 0"
    labels = ["XYZ_000001", "XYZ_000001a", "XYZ_000002", "XYZ_000003", "XYZ_000004", "XYZ_000005"]

    def label(self, number):
        return self.labels[number]


class Skips(Volume):
    """Numbers that are kept free behind each document."""
    due = "refused 112 CheckGap 3 102 110"

    def label(self, number):
        return super().label(number + (8 if number >= 2 else 0))


class TwoPrefixes(Volume):
    """A prefix for each custodian."""
    due = "refused 112 CheckGap 3 102 102"

    def label(self, number):
        return super().label(number).replace("XYZ", "XYZ" if number < 2 else "QRS")


class Grows(Volume):
    """Numbers that grow by a digit."""
    due = "refused 112 CheckGap 3 100 100"

    def label(self, number):
        return f"XYZ_{number + 98}"


class Natives(Volume):
    """A record for a file that has no image."""
    due = "refused 113 CheckBreaks 7 0 0"

    def dat(self, records):
        return super().dat([*records, {**records[-1], "BEGDOC": "XYZ_000106", "ENDDOC": "XYZ_000106", "PAGECOUNT": "1"}])


class OnePageCounts(Volume):
    """A count of 1 in each line of the OPT."""
    due = "refused 114 CheckCount 1 0 0"

    def opt_line(self, number, place, count):
        return [*super().opt_line(number, place, count)[:6], "1"]


class PaddedPageCount(Volume):
    """A PAGECOUNT with zeros at its front."""
    due = "refused 114 CheckCount 1 0 0"

    def record(self, first, count):
        return {**super().record(first, count), "PAGECOUNT": f"{count:03}"}


class Jpeg(Volume):
    """JPEG files for pages in colour."""
    image, due = b"\xff\xd8\xff\xe0\0\x10JFIF\0", "refused 80 TiffHead 1 0 0"


class Lzw(Volume):
    """Images that are compressed by LZW."""
    image, due = page("-c", "lzw"), "refused 84 TiffCompression 1 5 0"


class Group3(Volume):
    """Images that are compressed by Group 3."""
    image, due = page("-c", "g3"), "refused 84 TiffCompression 1 3 0"


class MultiPage(Volume):
    """An image for each document, with all its pages."""
    image, counts, due = pages_in_one(), [1, 1, 1], "refused 86 TiffManyPages 1 0 0"


class Capitals(Volume):
    """Digests in capitals, as Windows prints them."""
    due = "refused 115 ManifestShape 1 0 0"

    def manifest(self, files):
        return "".join(line[:64].upper() + line[64:] for line in super().manifest(files).splitlines(keepends=True))


class Md5(Volume):
    """Digests by MD5."""
    due = "refused 115 ManifestShape 1 0 0"

    def manifest(self, files):
        return "".join(f"{hashlib.md5(data).hexdigest()}  {path}\n" for path, data in files.items())


class Binary(Volume):
    """A star before each path, as `sha256sum --binary` writes it."""
    due = "refused 115 ManifestShape 1 0 0"

    def manifest(self, files):
        return super().manifest(files).replace("  ", " *")


class Unended(Volume):
    """A last line of the manifest without its end."""
    due = "refused 115 ManifestShape 11 0 0"

    def manifest(self, files):
        return super().manifest(files)[:-1]


class CarriageReturns(Volume):
    """A manifest with CR LF, so that each path ends in CR."""
    due = "refused 117 NotListed 0 0 0"

    def manifest(self, files):
        return super().manifest(files).replace("\n", "\r\n")


class ListedInside(Volume):
    """A manifest with paths that begin inside the volume's folder."""
    due = "refused 117 NotListed 0 0 0"

    def manifest(self, files):
        return super().manifest(files).replace(f"{self.root}/", "")


class ImagesAlone(Volume):
    """A manifest of the images alone."""
    due = "refused 117 NotListed 0 0 0"

    def manifest(self, files):
        return super().manifest({path: data for path, data in files.items() if path.endswith(".tif")})


RIGHT = [ByCsv, OtherColumns, OtherImages, NumbersAlone, BySha256sum]
REFUSED = [WindowsPage, PipesAndCarets, NewlineInValue, OtherNames, HeadedOpt, Lfp, Drives, FromTheRoot, FromTheVolume, Suffixes,
           Letters, Skips, TwoPrefixes, Grows, Natives, OnePageCounts, PaddedPageCount, Jpeg, Lzw, Group3, MultiPage, Capitals, Md5,
           Binary, Unended, CarriageReturns, ListedInside, ImagesAlone]


# ---- each checked

class Tries:
    """How many volumes were checked, and how many of them were told otherwise."""

    def __init__(self, program):
        self.program, self.count, self.other = program, 0, 0

    def one(self, name, files, words, due):
        with tempfile.TemporaryDirectory() as folder:
            write_files(folder, files)
            said = subprocess.run([*self.program, *words], cwd=folder, capture_output=True, text=True)
        told = said.stdout.rstrip("\n")
        status = 0 if self.program == MODEL else 2 if due.startswith("refused") else 0
        self.count += 1
        print(f"{name}: {told}")
        if told != due or said.returncode != status:
            self.other += 1
            print(f"    due was: {due}, with status {status} and not {said.returncode}")


def main():
    if len(sys.argv) != 3:
        sys.exit(__doc__)
    tries = Tries(MODEL if sys.argv[2] == "--model" else [os.path.abspath(sys.argv[2]), "check"])
    files = {path: data for path, data in read_files(sys.argv[1]).items() if path.startswith("VOL001/")}
    tries.one("the example volume", files, [DAT, OPT, MANIFEST], "checked documents 10 images 23 files 36")
    tries.one("without its manifest", files, [DAT, OPT], "checked documents 10 images 23 files 0")
    for name, changed, due in damages(files):
        tries.one(name, changed, [DAT, OPT, MANIFEST], due)
    for kind in [*RIGHT, *REFUSED]:
        volume = kind()
        tries.one(kind.__doc__.rstrip("."), volume.files(), volume.words(), kind.due)
    print(f"{tries.count} volumes checked, {tries.other} told otherwise than was due")
    sys.exit(1 if tries.other else 0)


if __name__ == "__main__":
    main()
