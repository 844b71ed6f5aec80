"""A volume that was written, from its files alone: what `press` and the like put there, read after a check."""
import os

from .checks import Check, page_rule
from .folder import read_file
from .profile import path_of
from .advice import check_line, said


class NotRight(Exception):
    """The volume breaks a rule, or isn't there; says which."""


class Written:
    """A volume that breaks no rule: records, documents, images and texts."""

    def __init__(self, folder, page_rules):
        self.above, self.name = os.path.split(os.path.abspath(folder))
        if not os.path.isdir(folder):
            raise NotRight(f"{folder}: there is no such folder")
        data = f"{self.name}/DATA/{self.name}"
        self.dat, self.opt, self.log, self.manifest = f"{data}.DAT", f"{data}.OPT", f"{data}-LOG.CSV", f"{self.name}/MANIFEST.TXT"
        known = page_rules(self)
        rule_of = lambda path, data: known[path] if path in known else page_rule(data)  # noqa: E731
        check = Check(self.read, self.dat, self.opt, self.manifest, page_rule_of=rule_of)
        fault = next(check.faults(), None)
        if fault:
            raise NotRight(f"{self.name}: check says `{check_line(fault)}`: {said(fault)[0]}; tivrenan-check-report tells all that is to be mended")
        self.columns = check.volume.columns
        self.rows = [[values[column] for column in self.columns] for _, values, _ in check.volume.rows]
        self.lines = check.volume.lines

    def read(self, path, which=3):
        return read_file(self.above, path, which)

    def documents(self):
        """Of each document its record, its images as (label, path), and the text of each page."""
        starts = [at for at, line in enumerate(self.lines) if line[4]]
        for row, start, end in zip(self.rows, starts, [*starts[1:], len(self.lines)]):
            images = [(line[1], path_of(line[3])) for line in self.lines[start:end]]
            values = dict(zip(self.columns, row))
            yield values, images, self.texts(values, len(images))

    def texts(self, values, count):
        """The volume's own text of each page: it stands a page before each form feed."""
        if not values.get("TEXTPATH"):
            return [""] * count
        pages = self.read(path_of(values["TEXTPATH"])).decode("utf-8-sig", "replace").split("\f")
        pages = pages[:count] + ["\n".join(pages[count:])] if len(pages) > count else pages
        pages += [""] * (count - len(pages))
        return pages[: count - 1] + ["\n".join(pages[count - 1 :])]
