"""A report of the faults of a volume for its producer, as a text and as an HTML page without a script."""
from dataclasses import dataclass
from html import escape

from . import advice
from .looks import NOT_LOOKED

MOST_PLACES = 50  # that are told of one fault
STYLE = """body { font: 16px/1.5 sans-serif; max-width: 60rem; margin: 2rem auto; padding: 0 1rem; color: #111; background: #fff; }
h1, h2 { line-height: 1.2; } table { border-collapse: collapse; width: 100%; } .mend { border-left: .3rem solid #1b5e8c; padding-left: .7rem; }
th, td { border-bottom: 1px solid #bbb; padding: .25rem .5rem; text-align: left; vertical-align: top; overflow-wrap: anywhere; }
code, .line { font: 14px/1.4 monospace; } .note { color: #444; }
@media print { body { margin: 0; max-width: none; } h2 { break-after: avoid; } tr { break-inside: avoid; } }"""


@dataclass
class Report:
    """What is told of a volume: its operands, all faults, what else was seen, and counts of documents, images, listed files."""

    words: list
    faults: list
    looks: list
    counts: tuple

    def says(self):
        """The line of `tivrenan check`."""
        if self.faults:
            return advice.check_line(self.faults[0])
        return "checked documents {} images {} files {}".format(*self.counts)

    def found(self):
        """How much was found, in a sentence."""
        documents, images, files = self.counts
        looked = f"{some(documents, 'record')}, {some(images, 'image')} and {some(files, 'listed file')} were looked at"
        if not self.faults:
            return f"No rule is broken; {looked}."
        groups = len(advice.grouped(self.faults))
        return f"{some(len(self.faults), 'fault')} of {some(groups, 'kind')}; {looked}."

    def not_looked(self):
        """What nobody looked at."""
        yield from NOT_LOOKED
        if len(self.words) < 3:
            yield "whether files are as they were sent, as no manifest was named"


def some(count, word):
    return f"{count:,} {word}" if count == 1 else f"{count:,} {word}s"


def rows_of(faults):
    """Of each fault of a group: place, the line that stands there, what was found, what was due."""
    return [(advice.place_of(fault), advice.stands(fault), advice.found(fault), advice.due(fault)) for fault in faults[:MOST_PLACES]]


def more_of(things):
    return f"and {len(things) - MOST_PLACES:,} more" if len(things) > MOST_PLACES else ""


# ---- text


def text_of(report):
    lines = [f"Volume: {' '.join(report.words)}", f"tivrenan check: {report.says()}", report.found(), ""]
    for number, group in enumerate(advice.grouped(report.faults), 1):
        what, mend = advice.said(group[0])
        lines += [f"{number}. {what[0].upper()}{what[1:]} ({advice.name_of(group[0])}): {some(len(group), 'time')}", f"   Mend: {mend}"]
        for place, stands, found, due in rows_of(group):
            lines.append(f"   - {place}")
            lines += [f"     {title} {value}" for title, value in (("line: ", stands), ("found:", found), ("due:  ", due)) if value]
        lines += [f"   {more_of(group)}"] if more_of(group) else []
        lines.append("")
    for look in report.looks:
        lines += [f"Also seen, which no rule forbids: {look.what}: {len(look.places):,}", f"   Mend: {look.mend}"]
        lines += [f"   - {advice.printable(place)}" for place in look.places[:MOST_PLACES]]
        lines += [f"   {more_of(look.places)}"] if more_of(look.places) else []
        lines.append("")
    return "\n".join([*lines, "Not looked at:", *(f"- {each}" for each in report.not_looked())]) + "\n"


# ---- HTML


def page_of(report, when):
    """The page; `when` is said on it."""
    name = " ".join(report.words)
    parts = [f"<h1>What is to be mended in a volume</h1>\n<p class=note>{escape(name)}, looked at {escape(when)}</p>",
             f"<p><code>{escape(report.says())}</code></p>\n<p>{escape(report.found())}</p>"]
    parts += [fault_part(number, group) for number, group in enumerate(advice.grouped(report.faults), 1)]
    parts += [look_part(look) for look in report.looks]
    left = "".join(f"<li>{escape(each)}</li>" for each in report.not_looked())
    parts.append(f"<h2>Not looked at</h2>\n<ul>{left}</ul>")
    body = "\n".join(parts)
    return (f'<!DOCTYPE html>\n<html lang="en"><head><meta charset="utf-8"><title>Volume {escape(name)}</title>\n'
            f'<meta name="viewport" content="width=device-width, initial-scale=1">\n<style>{STYLE}</style></head>'
            f"<body>\n{body}\n</body></html>\n")


def fault_part(number, group):
    what, mend = advice.said(group[0])
    told = rows_of(group)
    columns = [at for at in range(4) if at == 0 or any(row[at] for row in told)]
    titles = ("Where", "What stands there", "Found", "Due")
    head = "".join(f"<th>{titles[at]}</th>" for at in columns)
    rows = "\n".join("<tr>" + "".join(f"<td{' class=line' if at == 1 else ''}>{escape(row[at])}</td>" for at in columns) + "</tr>" for row in told)
    return (f"<h2>{number}. {escape(what[0].upper() + what[1:])}</h2>\n"
            f"<p class=note>{escape(advice.name_of(group[0]))}: {some(len(group), 'time')}</p>\n<p class=mend>{escape(mend)}</p>\n"
            f"<table>\n<tr>{head}</tr>\n{rows}\n</table>\n{escape(more_of(group))}")


def look_part(look):
    places = "".join(f"<li class=line>{escape(advice.printable(place))}</li>" for place in look.places[:MOST_PLACES])
    return (f"<h2>Also seen: {escape(look.what)}</h2>\n<p class=note>No rule forbids it. {some(len(look.places), 'time')}</p>\n"
            f"<p class=mend>{escape(look.mend)}</p>\n<ul>{places}</ul>{escape(more_of(look.places))}")
