"""Delimiters: which there are, and which of them is the best at an offset."""
from typing import NamedTuple

# The sorts of tags, as the options of libupon name them, and as messages do.
SORTS = {"expr": "expression", "block": "block", "comment": "comment"}
USUAL = [["expr", "{{", "}}"], ["block", "{%", "%}"], ["comment", "{#", "#}"]]


class Delimiter(NamedTuple):
    """A delimiter: its sort, whether it begins a tag, whether it has the hyphen, and its text."""

    sort: str
    begins: bool
    hyphen: bool
    text: bytes

    def word(self):
        """What messages call its token."""
        return f"{'begin' if self.begins else 'end'} {self.sort}"


class Found(NamedTuple):
    """A delimiter and where it is."""

    delimiter: Delimiter
    span: tuple


def delimiters_of(pairs):
    """The delimiters of a syntax in their order: of each sort the begin, the end, and both with the hyphen."""
    given = {kind: (begin.encode(), end.encode()) for kind, begin, end in pairs}
    listed = []
    for kind in SORTS:
        if kind in given:
            begin, end = given[kind]
            sort = SORTS[kind]
            listed += [Delimiter(sort, True, False, begin), Delimiter(sort, False, False, end)]
            listed += [Delimiter(sort, True, True, begin + b"-"), Delimiter(sort, False, True, b"-" + end)]
    return listed


def best(delimiters, source, at):
    """The longest delimiter at an offset, and of equal texts the one listed first."""
    there = [it for it in delimiters if source.startswith(it.text, at)]
    if not there:
        return None
    longest = max(len(it.text) for it in there)
    chosen = next(it for it in there if len(it.text) == longest)
    return Found(chosen, (at, at + longest))


def first(delimiters, source, at):
    """The best delimiter at the least offset from `at` on where one is."""
    for offset in range(at, len(source)):
        found = best(delimiters, source, offset)
        if found:
            return found
    return None
