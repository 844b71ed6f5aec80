"""What the rows of a matter say in numbers."""
from collections import Counter

from .rows import TREATMENTS

REDACT = 1
GROUNDS = {"AC": "attorney-client", "WP": "work product", "PI": "personal information", "TS": "trade secret"}


def is_settled(call):
    """Whether a document may be produced as it stands: called Produce, or confirmed by a second person."""
    return call is not None and (call.state == 2 or call.treatment == 0)


def state_of(matter, document):
    """One word for how far a document is."""
    call = matter.calls.get(document)
    if call is None or call.state == 0:
        return "not called"
    if call.state == 2:
        return "confirmed"
    return "called, and settled" if call.treatment == 0 else "waits for a second person"


def states(matter):
    """How many documents are how far, all words in their order."""
    counts = Counter(state_of(matter, document) for document in matter.documents)
    return [(word, counts[word]) for word in ("confirmed", "called, and settled", "waits for a second person", "not called")]


def treatments(matter):
    """How many documents are called what; one that isn't responsive stays out, whatever it is called."""
    called = [call for call in matter.calls.values() if call.state]
    counts = Counter(TREATMENTS[call.treatment] if call.responsive else "Not responsive" for call in called)
    return [(word, counts[word]) for word in (*TREATMENTS, "Not responsive")]


def produced(matter):
    """The documents that stand in a production, and those of them that are withheld there."""
    items = {document: treatment for production in matter.productions for document, treatment, _, _ in production.items}
    return len(items), sum(treatment > REDACT for treatment in items.values())


def people(matter):
    """A row for each member of the staff: number, name, role, and how many documents they edited last, and confirmed."""
    edited = Counter(call.editor for call in matter.calls.values() if call.state)
    confirmed = Counter(call.confirmer for call in matter.calls.values() if call.confirmer)
    withheld = Counter(call.editor for call in matter.calls.values() if call.state and call.responsive and call.treatment > REDACT)
    redacted = Counter(call.editor for call in matter.calls.values() if call.state and call.responsive and call.treatment == REDACT)
    return [
        (number, name, role, edited[number], redacted[number], withheld[number], confirmed[number])
        for number, (role, name) in sorted(matter.staff.items())
    ]


def grounds(matter):
    """For each ground the boxes, the held fields, and the documents withheld whole."""
    boxes = Counter(basis for _, basis in matter.boxes)
    held = Counter(basis for _, basis in matter.held)
    whole = Counter(TREATMENTS[call.treatment][-2:] for call in matter.calls.values() if call.state and call.responsive and call.treatment > REDACT)
    return [(f"{basis}, {word}", whole[basis], boxes[basis], held[basis]) for basis, word in GROUNDS.items()]


def batches(matter):
    """A row a batch: name, documents, pages, and how many of its documents are settled."""
    settled = Counter(batch for number, (_, batch) in matter.documents.items() if is_settled(matter.calls.get(number)))
    return [(name, documents, pages, settled[number]) for number, (name, documents, pages) in sorted(matter.batches.items())]


def productions(matter):
    """A row a production: id, volume, first and last label, documents, withheld ones, labels."""
    for each in matter.productions:
        first, last = each.items[0][2], each.items[-1][3]
        labels = [f"{each.prefix}{number:0{each.width}}" for number in (first, last)]
        withheld = sum(treatment > REDACT for _, treatment, _, _ in each.items)
        yield each.id, each.volume, *labels, len(each.items), withheld, last - first + 1


def open_documents(matter, word):
    """The numbers of the documents that are so far."""
    return [document for document in sorted(matter.documents) if state_of(matter, document) == word]
