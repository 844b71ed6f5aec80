"""The stand-in's looks that change nothing: states, values, staff, productions, a search and a plan."""
import functools
import os
import sys

from stand_in_rules import Refused

sys.path.insert(0, os.path.join(os.path.dirname(os.path.abspath(__file__)), "..", "..", "trials"))
import find_model  # noqa: E402

MOST_STATES = 500
HIT = ("doc", "page", "field", "place", "count")


def see_states(matter, _caller, numbers, _body):
    first = matter.doc(numbers[0]).number
    return [state_of(matter, doc) for doc in matter.docs[first - 1 : first - 1 + MOST_STATES]]


def state_of(matter, doc):
    return dict(doc.view(), boxes=len(doc.boxes), held=len(doc.held), entry=doc.entry is not None,
                production=matter.productions.of_doc.get(doc.number))


def see_values(matter, _caller, numbers, _body):
    doc = matter.doc(numbers[0])
    return [dict(field=field, held=doc.held.get(field), name=name, value=value)
            for field, (name, value) in enumerate(zip(matter.fields, doc.values), 1)]


def see_staff(matter, _caller, _words, _body):
    return [dict(name=name, role=role, staff=number) for number, (name, role, _) in enumerate(matter.staff, 1)]


def see_productions(matter, _caller, _words, _body):
    return matter.productions.rows()


def plan(matter, _caller, _words, body):
    return matter.productions.plan(body)


# ---- the search. The model looks at each part anew; the copies of a batch have the same texts, whose hits are kept

row_hits = find_model.row_hits


@functools.lru_cache(1 << 12)
def places(terms, texts):
    return [place for *_, place, _ in row_hits(terms, texts, 0, 0, 0)]


def kept_row_hits(terms, texts, doc, page, field):
    return [(doc, page, field, place, len(terms)) for place in places(tuple(terms), tuple(texts))]


find_model.row_hits = kept_row_hits


def find(matter, _caller, _words, body):
    if not hasattr(matter, "texts"):
        matter.texts = texts_of(matter)
    terms, doc, page = body["terms"], body["from"], body["page"]
    found = find_model.find(matter.texts, terms, doc, page)
    if isinstance(found, str):
        raise Refused(found, dict(NoDocument=doc, NoPage=page).get(found, 0))
    hits, following, next_page = found
    return dict(hits=[dict(zip(HIT, hit)) for hit in hits], next=following, next_page=next_page)


def texts_of(matter):
    """The documents as the model takes them; pages with the same list of words have the same texts."""
    kept = {}

    def page(words):
        if id(words) not in kept:
            kept[id(words)] = tuple(word["text"] for word in words)
        return kept[id(words)]

    return [(doc.values, [page(words) for words in doc.words]) for doc in matter.docs]
