"""The page: plots and tables of a matter's counts. It has no script, and asks for nothing."""
from html import escape

from . import counts
from .plots import PATTERNS, bars, share, stack

STYLE = """body { font: 16px/1.5 sans-serif; max-width: 50rem; margin: 2rem auto; padding: 0 1rem; color: #111; background: #fff; }
h1, h2 { line-height: 1.2; } svg { width: 100%; height: auto; font: 14px sans-serif; }
table { border-collapse: collapse; width: 100%; } th, td { border-bottom: 1px solid #bbb; padding: .25rem .5rem; text-align: right; }
th:first-child, td:first-child, .word { text-align: left; } .note { color: #444; }
@media print { body { margin: 0; max-width: none; } h2 { break-after: avoid; } table, svg { break-inside: avoid; } }"""
MOST_NUMBERS = 200


def page_of(matter, file, when):
    """The page as HTML; `when` is said on it."""
    parts = [head(matter, file, when), states(matter), people(matter), grounds(matter), batches(matter), productions(matter)]
    body = "\n".join(parts)
    return (
        f'<!DOCTYPE html>\n<html lang="en"><head><meta charset="utf-8"><title>Matter {escape(file)}</title>\n'
        f'<meta name="viewport" content="width=device-width, initial-scale=1">\n<style>{STYLE}</style></head><body>\n'
        f"{PATTERNS}\n{body}\n</body></html>\n"
    )


def head(matter, file, when):
    documents = len(matter.documents)
    pages = sum(pages for pages, _ in matter.documents.values())
    made, withheld = counts.produced(matter)
    came = f"{some(documents, 'document')} on {some(pages, 'page')} came in, in {some(len(matter.batches), 'batch')}."
    went = f"{some(made, 'document')} produced ({share(made, documents)}), {withheld} of them withheld"
    lines = [came, f"{went}, in {some(len(matter.productions), 'production')}."]
    said = "".join(f"<p>{line}</p>" for line in lines)
    return f'<h1>How far the matter is</h1>\n<p class="note">{escape(file)}, as it stood {escape(when)}</p>\n{said}'


def some(count, word):
    """The count with its word."""
    return f"{count} {word}" if count == 1 else f"{count} {word}{'es' if word.endswith('ch') else 's'}"


def states(matter):
    told = [
        "<h2>How far the documents are</h2>",
        stack("How many documents are confirmed, called and settled, wait for a second person, or are not called", counts.states(matter)),
        "<h2>What they are called</h2>",
        stack("How many documents are called what", counts.treatments(matter)),
        '<p class="note">A document called Produce is settled once it is called; each other one once a second person confirmed it.</p>',
    ]
    for word in ("waits for a second person", "not called"):
        numbers = counts.open_documents(matter, word)
        if numbers:
            more = f", and {len(numbers) - MOST_NUMBERS} more" if len(numbers) > MOST_NUMBERS else ""
            told.append(f"<p>{word.capitalize()}: {', '.join(map(str, numbers[:MOST_NUMBERS]))}{more}.</p>")
    return "\n".join(told)


def people(matter):
    rows = counts.people(matter)
    return "\n".join([
        "<h2>By whom</h2>",
        bars("Documents that each edited last", [(f"{row[1]}, edited last", row[3]) for row in rows if row[3]]),
        bars("Documents that each confirmed", [(f"{row[1]}, confirmed", row[6]) for row in rows if row[6]]),
        table(["Number", "Name", "Role", "Edited last", "to redact", "to withhold", "Confirmed"], rows, words=(1, 2)),
        '<p class="note">A matter keeps who edited a document last and who confirmed it, and no earlier ones.</p>',
    ])


def grounds(matter):
    logged = f"<p>Entries for the privilege log: {len(matter.entries)}.</p>"
    rows = table(["Ground", "Documents withheld whole", "Boxes", "Held fields"], counts.grounds(matter))
    return f"<h2>On which grounds</h2>\n{rows}\n{logged}"


def batches(matter):
    rows = [(*row, share(row[3], row[1])) for row in counts.batches(matter)]
    return "<h2>Batches</h2>\n" + table(["Batch", "Documents", "Pages", "Settled documents", "Share"], rows)


def productions(matter):
    rows = list(counts.productions(matter))
    titles = ["Production", "Volume", "First label", "Last label", "Documents", "Withheld", "Labels"]
    return "<h2>Productions</h2>\n" + (table(titles, rows, words=(1, 2, 3)) if rows else "<p>None is frozen yet.</p>")


def table(titles, rows, words=()):
    def cell(tag, at, value):
        return f'<{tag}{" class=word" if at in words else ""}>{escape(str(value))}</{tag}>'

    lines = ["<tr>" + "".join(cell("td", at, value) for at, value in enumerate(row)) + "</tr>" for row in rows]
    head_line = "<tr>" + "".join(cell("th", at, title) for at, title in enumerate(titles)) + "</tr>"
    return "<table>\n" + "\n".join([head_line, *lines]) + "\n</table>"
