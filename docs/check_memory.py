#!/usr/bin/env python3
"""Tests that want of memory is only handed on. A body that may answer that memory ran out could answer it by what it saw, and no
contract would refuse that; so the sources are read, of all crates but tests, samples and benches:
- each place that makes this answer must hand on one that it was given (an error of the allocator, or another call's), or be one of
  MADE, where a library or a call hides what it was; and these answers go by no other name;
- each growth by a size must be one of SIZED: memory that nobody has can be asked for by what is seen;
- what reads and covers the rows of a kept page (WALL) has neither an allocator nor an answer, so that it can tell nothing of them; what
  lends what a volume shows, or what a want is owed (LENDS), has neither an allocator nor a refusal;
- in the crates that make what others are given (OUTWARD) a function that has the tables and an allocator is one of BOTH, and only hands
  both on.
Memory that is taken bit by bit, by pushes or copies, is not seen here: where it would tell a receiver, the walls lend nothing to tell.
Prints each other place, and ends with status 1 where there is one."""
import pathlib
import re
import sys

TOP = pathlib.Path(__file__).resolve().parent.parent

# file, function: why the answer is made there
MADE = {
    ("bp_book/src/book.rt", "call"): "the copy of the call, or room for it in the journal, was refused",
    ("bp_desk/src/matters.rt", "serve_matter"): "room for the posts was refused",
    ("bp_freeze/src/log.rt", "bytes_of"): "csv's writer answers an error, which in memory is want of memory",
    ("bp_freeze/src/log.rt", "put_line"): "csv's writer answers an error, which in memory is want of memory",
    ("bp_matter/src/kept_page.rt", "hold"): "Arc's own error",
    ("bp_matter/src/kept_page.rt", "share"): "Arc's count of holders is full",
    ("bp_outside/src/memory/door.rt", "read"): "the call's own want, noted in the exchange",
    ("bp_outside/src/memory/door.rt", "write"): "the call's own want, noted in the exchange",
    ("bp_rules/src/histories.rt", "answer_next"): "room for an answer was refused",
    ("bp_rules/src/steps.rt", "make"): "room for a change was refused",
    ("bp_receiver/src/delivery.rt", "grant"): "the copy of the id, or room for a grant, was refused",
    ("bp_records/src/rows.rt", "read_record"): "csv's reader answers an error, which in memory is want of memory",
    ("bp_receiver/src/requests.rt", "read_event"): "the router could not be made for want of memory",
    ("bp_receiver/src/requests.rt", "asked_in"): "the event of a body was refused, which wants memory alone",
    ("bp_receiver/src/wants.rt", "owed_given"): "room for the list was refused",
    ("bp_web/src/members.rt", "object_in"): "serde_json's own kind of error says that memory ran out",
    ("bp_web/src/requests.rt", "read_request"): "the router could not be made for want of memory",
    ("bp_web/src/requests.rt", "asked_in"): "the call of a body was refused, which wants memory alone",
    ("bp_web/src/router.rt", "add"): "matchit refused a route of the fixed table, which it does for want of memory",
}

# file, function: the sizes that memory is asked for by, and what each is
SIZED = {
    ("bp_book/src/book.rt", "call"): (["reserve(1)"], "one call of the journal"),
    ("bp_burn/src/burning.rt", "copy_with_rows"):
        (["with_capacity(alloc, size)", "resize(size, 0)"], "the sides of the page that is made"),
    ("bp_burn/src/out_room.rt", "white_runs"): (["with_capacity(alloc, 1)"], "one run"),
    ("bp_burn/src/strips.rt", "start_writer"): (["reserve(size)"], "by the sides and the stamps, which are shown"),
    ("bp_check/src/plans.rt", "load_paths"): (["with_capacity(alloc, 2)"], "two paths"),
    ("bp_check/src/records.rt", "records_of"): (["with_capacity(alloc, left.len())"], "the records of a file that the caller gave"),
    ("bp_desk/src/matters.rt", "serve_matter"): (["with_capacity(alloc, desks as usize)"], "the desks that the command line asks for"),
    ("bp_desk/src/starting.rt", "over"): (["with_capacity(alloc, seats as usize)"], "the seats that the command line asks for"),
    ("bp_desk/src/starting.rt", "made"): (["with_capacity(alloc, 1)"], "one book"),
    ("bp_freeze/src/marks.rt", "no_marks"):
        (["vec![in alloc; false; documents + 1]"], "a mark for each document, for a lead who freezes"),
    ("bp_import/src/documents.rt", "empty_lists"): (["with_capacity(alloc, count)"], "the pages of the batch that the caller gave"),
    ("bp_import/src/documents.rt", "pages_with_words"):
        (["with_capacity(alloc, pages.len())"], "the pages of the batch that the caller gave"),
    ("bp_import/src/documents.rt", "docs_with_pages"):
        (["with_capacity(alloc, left.len())"], "the documents of the batch that the caller gave"),
    ("bp_import/src/families.rt", "parents_of"):
        (["with_capacity(alloc, docs.len())"], "the documents of the batch that the caller gave"),
    ("bp_import/src/records.rt", "records_of"): (["with_capacity(alloc, left.len())"], "the records of a file that the caller gave"),
    ("bp_import/src/records.rt", "record_of"): (["with_capacity(alloc, cells.len())"], "the fields of a record that the caller gave"),
    ("bp_import/src/scans.rt", "read_images"): (["with_capacity(alloc, lines.len())"], "the lines of a file that the caller gave"),
    ("bp_import/src/word_pages.rt", "places_of"): (["with_capacity(alloc, rows.len())"], "the words of a file that the caller gave"),
    ("bp_keep_sql/src/lines.rt", "read_lines"):
        (["with_capacity(alloc, lines.len())"], "the lines that the database gave, all of them kept rows"),
    ("bp_load/src/dat.rt", "read_values"): (["with_capacity(alloc, room)"], "the columns of a file that the caller gave"),
    ("bp_load/src/dat.rt", "with_newlines"):
        (["with_capacity(alloc, text.len())"], "the length of a value in a file that the caller gave"),
    ("bp_looks/src/produced.rt", "production_ids"): (["vec![in alloc; None; count]"], "a place a document, of 500 at most"),
    ("bp_matter/src/checking/productions.rt", "stand_once"):
        (["vec![in alloc; false; docs + 1]"], "a mark a document, in rows that are checked before anything is made of them"),
    ("bp_outside/src/system/file_source.rt", "read_open"):
        (["with_capacity(alloc, room)"], "the length of a file that the caller gave, cut at its limit"),
    ("bp_press/src/families.rt", "first_numbers"):
        (["vec![in alloc; 0u64; documents + 1]"], "a number a document up to the last parent of the production's items"),
    ("bp_press/src/families.rt", "last_numbers"):
        (["vec![in alloc; 0u64; documents + 1]"], "a number a document up to the last parent of the production's items"),
    ("bp_rows/src/page.rt", "white"):
        (["vec![in alloc; 0; bytes_of_strip(width, height)]"], "the sides of the page that is made, which the caller gave"),
    ("bp_rules/src/apply_changes.rt", "reserve_call"): (["reserve(row.doc)"], "one row on the shelf of a document"),
    ("bp_rules/src/apply_changes.rt", "reserve_mark"): (["reserve(row.doc)"], "one row on the shelf of a document"),
    ("bp_rules/src/apply_changes.rt", "reserve_four"): (["reserve(count)"], "the rows that a change puts"),
    ("bp_rules/src/histories.rt", "answer_next"): (["reserve(1)"], "one answer"),
    ("bp_shelves/src/shelves.rt", "from_rows"): (["reserve(row.doc())"], "one row on the shelf of a document"),
    ("bp_shelves/src/stocking.rt", "make_shelf"): (["reserve(1)"], "one row"),
    ("bp_t6/src/bit_writer.rt", "reserve"): (["reserve(bytes)"], "handed on"),
    ("bp_t6/src/row_room.rt", "take"): (["with_capacity(alloc, room_for(width))"], "by the width, which is shown"),
    ("bp_t6/src/strip_rows.rt", "runs_of"):
        (["with_capacity(alloc, places.len() + 1)"], "the runs of a row that is made; the press makes none"),
    ("bp_t6/src/strip_writer.rt", "reserve"): (["reserve(bytes)"], "handed on"),
    ("bp_t6/src/turns.rt", "make_room"): (["reserve(TURNS)"], "two turns"),
    ("bp_tiff/src/reading.rt", "empty_rows"):
        (["with_capacity(alloc, room)"], "by the length of a file that the caller gave and the sides in its head"),
    ("bp_tiff/src/writing.rt", "with_head"):
        (["with_capacity(alloc, bytes_of_head(form) as usize)"], "the head of a file, of one of few lengths"),
    ("bp_web/src/messages.rt", "message_bytes"):
        (["with_capacity(alloc, body.len().saturating_add(HEAD_ROOM))"], "the length of the message that is made"),
    ("bp_t6/src/canonical_strip.rt", "are_coded_lines"):
        (["with_capacity(alloc, room_for(width))", "with_capacity(alloc, room_for(width))"],
         "the changes of two rows, by the width of a page that is loaded"),
}

# what sees pixels that are to be covered, words and values that are held back
WALL = ("bp_t6/src/page_rows.rt", "bp_t6/src/row_code.rt", "bp_burn/src/covered_rows.rt")
LENDS = ("bp_press/src/covered.rt", "bp_press/src/lent.rt", "bp_press/src/shown.rt", "bp_receiver/src/owed.rt")
ANSWERS = re.compile(r"\b(?:Result|Option|Global|alloc|Allocator|OutOfMemory|AllocError)\b")
REFUSES = re.compile(r"\b(?:Result|Global|alloc|Allocator|OutOfMemory|AllocError|Refusal|Vec|String|Box)\b")

# crates that make what others are given: volumes, replacements, answers to receivers
OUTWARD = re.compile(r"^bp_(?:press|claw|own_volumes|frozen|receiver)/")
# file, function: those of such a crate that have the tables and an allocator, and hand both on; what else one does with either
BOTH = {
    ("bp_claw/src/replacing.rt", "add_replacement"): [],
    ("bp_claw/src/replacing.rt", "replace"): [],
    ("bp_press/src/pressing.rt", "press"): [],
    ("bp_press/src/strips.rt", "strips_of"): [],
    ("bp_receiver/src/delivery.rt", "over"): [],
    ("bp_receiver/src/delivery.rt", "with_grants"): [],
    ("bp_receiver/src/delivery.rt", "grant_at"): ["self.grant("],
    ("bp_receiver/src/delivery.rt", "grant"): ["self.tables.production(id).is_none()", "self.grants.len()"],
    ("bp_receiver/src/handler.rt", "answer"): [],
    ("bp_receiver/src/serving.rt", "serve_receiver"): ["let alloc = delivery.alloc;"],
    ("bp_receiver/src/event_answers.rt", "answer_read"): [],
    ("bp_receiver/src/event_answers.rt", "answer_event"): [],
    ("bp_receiver/src/steps.rt", "deliver_step"): [],
    ("bp_receiver/src/steps.rt", "review"): [],
    ("bp_receiver/src/steps.rt", "step_at"): [],
    ("bp_receiver/src/steps.rt", "granted"): [],
    ("bp_receiver/src/steps.rt", "grant_by"): ["delivery.tables.staff_with(key)", "delivery.grant("],
    ("bp_receiver/src/steps.rt", "given_wanted"): [],
    ("bp_receiver/src/steps.rt", "receive_at"): [],
    ("bp_receiver/src/wants.rt", "receive"): [],
}

NOT_PRODUCT = re.compile(r"^bp_(test_|bench)")
ANSWER = r"(?:OutOfMemory|AllocError|AllocFailed|\w*Refusal)"
# another name for the answer, or for what has it
RENAMES = re.compile(r"\b" + ANSWER + r"\s+as\s+\w+|\btype\s+\w+\s*=\s*(?:\w+::)*" + ANSWER + r"\s*;")
GROWS = re.compile(r"(?<!fn )\b(?:with_capacity|(?:try_)?reserve(?:_exact)?|resize(?:_with)?)\(|\.repeat\(|\bvec!\[|\busize::MAX\b")
CONVERTS = re.compile(r"From<(OutOfMemory|AllocError|AllocFailed|\w*Refusal|\w*Fault)")
SEES = re.compile(r"\b(?:Tables|Delivery)\b")
TAKES = re.compile(r"\b(?:Global|Delivery)\b")
MAKES = re.compile(r"\b(?:\w+::)?OutOfMemory\b|\bAllocError\b")
# the word in a type, an import, a clause, a pattern
NO_MAKING = re.compile(r"^\s*(?://|use |pub use |ghost |ensures|requires|invariant|#|OutOfMemory,|pub struct|pub type |impl|fn |pub fn |pub\(crate\) fn |law |\) -> )")


def functions(path):
    """Number, text, name of the function, and head of the impl, of each line of code."""
    name, head, in_clause, in_import = "", "", 0, False
    for number, line in enumerate(path.read_text().splitlines(), 1):
        # an import runs to its semicolon
        if in_import or re.match(r"(?:pub )?use ", line):
            in_import = not line.endswith(";")
            continue
        if line.startswith("impl"):
            head = line
        elif line and not line[0].isspace() and not line.startswith("}"):
            head = ""
        found = re.match(r"\s*(?:pub(?:\(\w+\))? )?(?:const )?fn (\w+)", line)
        if found:
            name = found.group(1)
        # clauses run to the brace that closes them
        if re.match(r"\s*(ensures|requires|invariant|ghost)\b", line) or in_clause:
            in_clause += line.count("{") - line.count("}") + line.count("[") - line.count("]")
            if in_clause < 0:
                in_clause = 0
            continue
        yield number, line, name, head


def bodies(path):
    """The signature and the body of each function, without clauses and comments, in one line each. Those of one name stand together."""
    texts = {}
    for _, line, name, head in functions(path):
        texts.setdefault((name, head), []).append(line.split("//")[0].strip())
    for (name, head), lines in texts.items():
        # what a method is called on has a type, too
        text = " ".join(lines)
        if head.endswith(" {"):
            text = re.sub(r"\bself,", f"self: {head.split()[-2]},", text)
        for part in re.split(r"(?=\bfn " + name + r"\b)", text) if name else []:
            at = part.find("(")
            if part.startswith("fn ") and at >= 0:
                words = closed(part, at)
                yield name, words, part[at + len(words):]


def closed(text, at):
    """The text from a bracket, or a word before one, to the bracket that closes it."""
    depth = 0
    for end in range(at, len(text)):
        if text[end] in "([{":
            depth += 1
        elif text[end] in ")]}":
            depth -= 1
            if depth == 0:
                return text[at:end + 1]
    return text[at:]


def sizes(body):
    """The growths by a size."""
    for found in GROWS.finditer(body):
        word = found.group()
        yield closed(body, found.start()).lstrip(".") if word[-1] in "([" else word


def kept_back(words, body, looks):
    """What a function does with the tables or the allocator but hand them on."""
    for look in looks:
        body = body.replace(look, "")
    owners = re.findall(r"(\w+): (?:&(?:'\w+ )?(?:mut )?)?(?:Tables|Delivery)\b", words) + ["alloc"]
    for owner in owners:
        part = r"(?:\.(?:tables|alloc|grants|ready))?" if owner not in ("tables", "alloc") else ""
        body = re.sub(r"(?<=[({,])\s*(?:&(?:mut )?)?" + owner + part + r"\s*(?=[,)}])", "", body)
        body = body.replace(owner + ".know_valid()", "")
    return [found.group() for owner in owners for found in re.finditer(r"\b" + owner + r"\b[^;]*;?", body)]


def makes(line):
    if not MAKES.search(line) or NO_MAKING.match(line):
        return False
    code = re.sub(r'"[^"]*"', "", line.split("//")[0].replace('\\"', ""))
    if "=>" in code:
        pattern, answer = code.split("=>", 1)
        if not MAKES.search(answer):
            return False
        # handed on: the pattern names the same want
        return not MAKES.search(pattern)
    # a type: Result<T, OutOfMemory>, |_: AllocError|
    code = re.sub(r"<[^<>]*(?:OutOfMemory|AllocError)[^<>]*>+", "", code)
    code = re.sub(r"(?:->|(?<!:):\s)\s*(?:\w+::)?(?:OutOfMemory|AllocError)\b", "", code)
    code = re.sub(r"AllocError::from\b", "", code)
    return bool(MAKES.search(code))


def product():
    """The files of the product."""
    for path in sorted(TOP.glob("crates/*/src/**/*.rt")):
        below = path.relative_to(TOP / "crates")
        if not (NOT_PRODUCT.match(str(below)) or "tests" in below.parts or below.name == "tests.rt"):
            yield path, str(below)


def read_answers(path, below, used):
    """Want of memory that is made, or goes by another name."""
    for number, line, name, head in functions(path):
        # a conversion of such an error hands it on
        if CONVERTS.search(head) or not makes(line):
            continue
        if (below, name) in MADE:
            used.add((below, name))
        else:
            yield f"crates/{below}:{number}: {name}: {line.strip()}"
    text = re.sub(r"(?m)^\s*(?:ghost use .*|//.*)$", "", path.read_text())
    for found in RENAMES.finditer(text):
        yield f"crates/{below}: another name: {' '.join(found.group().split())}"


def read_growths(path, below, used):
    """Memory that is asked for by a size, and in a crate that makes what others are given what has the tables and an allocator."""
    for name, words, body in bodies(path):
        for size in sizes(body):
            if size in SIZED.get((below, name), ([],))[0]:
                used.add((below, name, size))
            else:
                yield f"crates/{below}: {name}: memory by a size: {size}"
        if not OUTWARD.match(below) or not (SEES.search(words) and TAKES.search(words)):
            continue
        used.add((below, name, "both"))
        if (below, name) not in BOTH:
            yield f"crates/{below}: {name}: has the tables and an allocator"
        for text in kept_back(words, body, BOTH.get((below, name), [])):
            yield f"crates/{below}: {name}: doesn't hand on: {text}"


def stale(used):
    """What stands on a list, and is in no source any more."""
    for file, name in sorted(set(MADE) - used):
        yield f"no want of memory is made in {name} of crates/{file} any more: take it off the list"
    for (file, name), (listed, _) in sorted(SIZED.items()):
        for size in listed:
            if (file, name, size) not in used:
                yield f"no memory is asked for by {size} in {name} of crates/{file} any more: take it off the list"
    for file, name in sorted(BOTH):
        if (file, name, "both") not in used:
            yield f"{name} of crates/{file} hasn't the tables and an allocator any more: take it off the list"


def main():
    strange, used = [], set()
    for path, below in product():
        strange += read_answers(path, below, used)
        strange += read_growths(path, below, used)
    for below in WALL:
        for number, line, name, _ in functions(TOP / "crates" / below):
            if ANSWERS.search(line.split("//")[0]):
                strange.append(f"crates/{below}:{number}: {name}: behind the wall: {line.strip()}")
    for below in LENDS:
        for number, line in enumerate((TOP / "crates" / below).read_text().splitlines(), 1):
            if REFUSES.search(line.split("//")[0]):
                strange.append(f"crates/{below}:{number}: in what lends: {line.strip()}")
    strange += stale(used)
    for place in strange:
        print(place)
    sys.exit(1 if strange else 0)


main()
