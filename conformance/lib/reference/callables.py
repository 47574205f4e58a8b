"""The functions and formatters that cases name, each as docs/contributing/CONFORMANCE.md describes it."""
from typing import Callable, NamedTuple

from .values import is_true, kind

# The integers that each type of argument takes.
RANGES = {"i64": (-2**63, 2**63 - 1), "u8": (0, 255), "usize": (0, 2**64 - 1)}
# The kind of value that each other type of argument takes.
TYPES = {"&str": "string", "list": "list", "map": "map"}


class Declined(Exception):
    """A function or a formatter refuses; a formatter with what it wrote before."""

    def __init__(self, message, text=""):
        super().__init__(message)
        self.message = message
        self.text = text


class Function(NamedTuple):
    """A function: the types of its arguments, and what it answers to them."""

    types: tuple
    answer: Callable


class Formatter(NamedTuple):
    """A formatter: what it writes for a value."""

    text: Callable


def misfit(type_word, value):
    """What is wrong with an argument of this type, if something is."""
    if type_word == "any":
        return None
    if kind(value) != TYPES.get(type_word, "integer"):
        return f"{type_word} argument, found {kind(value)}"
    low, high = RANGES.get(type_word, (value, value))
    return None if type_word in TYPES or low <= value <= high else f"{type_word} argument, but `{value}` is out of range"


def usual(value):
    """What is written for a value if no formatter is named."""
    if value is None:
        return ""
    if isinstance(value, (list, dict)):
        raise Declined(f"expression evaluated to unformattable type {kind(value)}")
    return str(value).lower() if isinstance(value, bool) else str(value)


def wrapped(number):
    """The integer of 64 bits that a sum leaves."""
    return (number + 2**63) % 2**64 - 2**63


def decline(message, text=""):
    """Refuses."""
    raise Declined(message, text)


def within(number):
    """An integer of 64 bits, or a refusal."""
    return number if -2**63 <= number <= 2**63 - 1 else decline("integer overflow")


def wrapped_text(value):
    """What `fmt` writes between its brackets; before it refuses it has written the first one."""
    try:
        return usual(value)
    except Declined as declined:
        raise Declined(declined.message, "<") from None


# The functions and formatters of these cases alone.
OWN = {
    "double": Function(("i64",), lambda a: wrapped(2 * a)),
    "sum": Function(("i64", "i64"), lambda a, b: wrapped(a + b)),
    "low": Function(("u8",), lambda a: a),
    "no": Function(("&str",), lambda a: decline("no")),
    "pair": Function(("any",), lambda a: [a, a]),
    "nothing": Function((), lambda: None),
    "fmt": Formatter(lambda value: "<" + wrapped_text(value) + ">"),
    "stop": Formatter(lambda value: decline("stopped", "before")),
    "mute": Formatter(lambda value: decline(None)),
}


def html(value):
    """A value's text with what has a meaning in HTML as references."""
    text = usual(value)
    if isinstance(value, str):
        for letter, reference in (("&", "&amp;"), ("<", "&lt;"), (">", "&gt;"), ('"', "&quot;"), ("'", "&#39;")):
            text = text.replace(letter, reference)
    return text


def divided(a, b):
    """A quotient, rounded towards 0."""
    if b == 0:
        return decline("division by zero")
    return within(abs(a) // abs(b) * (1 if (a < 0) == (b < 0) else -1))


def length(a):
    """How many characters a text has, and how many items or entries a list or a map."""
    return len(a) if isinstance(a, (str, list, dict)) else decline(f"{kind(a)} has no length")


def joined(items, separator):
    """The texts of a list with a separator between them."""
    strange = [item for item in items if not isinstance(item, str)]
    return decline(f"cannot join {kind(strange[0])}") if strange else separator.join(items)


def is_same(a, b):
    """Whether two values are the same; a truth value is no integer."""
    if kind(a) != kind(b):
        return False
    if isinstance(a, list):
        return len(a) == len(b) and all(map(is_same, a, b))
    if isinstance(a, dict):
        return list(a) == list(b) and all(map(is_same, a.values(), b.values()))
    return a == b


# Some of the standard functions (docs/STANDARD.md), on texts of ASCII.
STANDARD = {
    "eq": Function(("any", "any"), is_same),
    "and": Function(("any", "any"), lambda a, b: is_true(a) and is_true(b)),
    "default": Function(("any", "any"), lambda a, b: b if a is None else a),
    "choose": Function(("any", "any", "any"), lambda c, a, b: a if is_true(c) else b),
    "add": Function(("i64", "i64"), lambda a, b: within(a + b)),
    "sub": Function(("i64", "i64"), lambda a, b: within(a - b)),
    "neg": Function(("i64",), lambda a: within(-a)),
    "div": Function(("i64", "i64"), divided),
    "upper": Function(("&str",), str.upper),
    "repeat": Function(("&str", "usize"), lambda a, n: a * n),
    "length": Function(("any",), length),
    "first": Function(("list",), lambda a: a[0] if a else None),
    "reverse": Function(("list",), lambda a: a[::-1]),
    "join": Function(("list", "&str"), joined),
    "keys": Function(("map",), list),
    "get": Function(("map", "&str", "any"), lambda a, key, b: a.get(key, b)),
}
