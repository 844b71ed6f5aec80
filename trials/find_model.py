"""A plain model of the search for words: what it finds from a part of a document on, in documents that
are given as lists. Nothing here is taken from the crates.

A document is (values, pages): a list of texts, and a list of lists of words. `find(docs, terms, doc, page)`
answers a reason ('TermRefused', 'NoDocument', 'NoPage') or (hits, next, next_page), a hit being (doc, page,
field, place, count)."""
import functools
import unicodedata

MOST_PARTS = 1000
ENOUGH_HITS = 1000
MOST_TERMS = 8
LONGEST_TERM = 200

# CaseFolding.txt, status S: the sharp s, and three that came with Unicode 15.1. Of the others that fold to several
# characters in full, the simple folding is their lower case where that is one character, else themselves.
SIMPLE = {'\u1e9e': '\u00df', '\ufb05': '\ufb06', '\u1fd3': '\u0390', '\u1fe3': '\u03b0'}


@functools.lru_cache(None)
def fold(character):
    """Simple case folding (Unicode, section 3.13)."""
    if character in SIMPLE:
        return SIMPLE[character]
    full = character.casefold()
    if len(full) == 1:
        return full
    lower = character.lower()
    return lower if len(lower) == 1 else character


def one(sign, character):
    if sign == '#':
        return character in '0123456789'
    return fold(sign) == fold(character)


def stands(term, word):
    """Whether the term stands for the whole word."""
    front = term.startswith('*')
    rest = term[1:] if front else term
    end = rest.endswith('*')
    middle = rest[:-1] if end else rest
    for start in range(len(word) + 1) if front else [0]:
        stop = start + len(middle)
        if stop > len(word) or (not end and stop != len(word)):
            continue
        if all(one(s, c) for s, c in zip(middle, word[start:stop])):
            return True
    return False


def is_letter_or_digit(character):
    category = unicodedata.category(character)
    return category[0] == 'L' or category == 'Nd'


@functools.lru_cache(1 << 16)
def core(word):
    kept = [i for i, c in enumerate(word) if is_letter_or_digit(c)]
    return word[kept[0]:kept[-1] + 1] if kept else ''


@functools.lru_cache(1 << 16)
def matches(term, word):
    return stands(term, word) or stands(term, core(word))


def row_hits(terms, texts, doc, page, field):
    count = len(terms)
    return [(doc, page, field, i + 1, count) for i in range(len(texts) - count + 1)
            if all(map(matches, terms, texts[i:i + count]))]


def parts_from(docs, doc, page):
    return [(n, p) for n in range(doc, len(docs) + 1) for p in range(page if n == doc else 0, len(docs[n - 1][1]) + 1)]


def all_hits(docs, terms, doc, page):
    """Those of each part from this one on, wherever a search stops."""
    return [hit for n, p in parts_from(docs, doc, page) for hit in part_hits(terms, docs[n - 1], n, p)]


def part_hits(terms, document, doc, page):
    values, pages = document
    if page:
        return row_hits(terms, pages[page - 1], doc, page, 0)
    return [hit for i, value in enumerate(values)
            for hit in row_hits(terms, [text for text in value.split(' ') if text], doc, 0, i + 1)]


def good_term(term):
    return (0 < len(term.encode()) <= LONGEST_TERM
            and all(ord(c) >= 0x20 and ord(c) != 0x7F for c in term))


def find(docs, terms, doc, page):
    if not 0 < len(terms) <= MOST_TERMS or not all(good_term(term) for term in terms):
        return 'TermRefused'
    if not 0 < doc <= len(docs):
        return 'NoDocument'
    if page > len(docs[doc - 1][1]):
        return 'NoPage'
    hits = []
    for taken, (n, p) in enumerate(parts_from(docs, doc, page)):
        if taken == MOST_PARTS or len(hits) >= ENOUGH_HITS:
            return hits, n, p
        hits += part_hits(terms, docs[n - 1], n, p)
    return hits, 0, 0
