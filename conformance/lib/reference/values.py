"""Values: none, truth values, integers, texts, lists and maps; and what a path means where it is."""
from typing import NamedTuple

from .faults import Fault

KINDS = {type(None): "none", bool: "bool", int: "integer", str: "string", list: "list", dict: "map"}


class Missed(Exception):
    """A miss by `?.`, which ends the path with no value."""


class Plain(NamedTuple):
    """A name that is bound to a value."""

    name: str
    value: object


class Key(NamedTuple):
    """A loop's key."""

    name: str
    text: str


class State(NamedTuple):
    """A loop's state: which item it is, of how many."""

    name: str
    index: int
    count: int


def kind(value):
    """What messages call a kind of value."""
    return KINDS[type(value)]


def is_true(value):
    """None, `false`, 0 and what is empty are false."""
    return value not in (None, False, 0, "", [], {})


def in_order(entries):
    """A map in the order of its keys' bytes; of equal keys the last counts."""
    return dict(sorted(dict(entries).items(), key=lambda it: it[0].encode()))


def step(value, member):
    """A member of a value; a miss is a fault, or the end of the path if it is by `?.`."""
    if isinstance(member.access, int):
        if not isinstance(value, list):
            raise Fault("render error", f"{kind(value)} does not support integer-based access", member.span)
        if member.access < len(value):
            return value[member.access]
        reason = f"index out of bounds, the length is {len(value)}"
    else:
        if not isinstance(value, dict):
            raise Fault("render error", f"{kind(value)} does not support key-based access", member.span)
        if member.access in value:
            return value[member.access]
        reason = "not found in map"
    if member.optional:
        raise Missed
    raise Fault("render error", reason, member.span)


def walk(value, members):
    """From member to member; a miss by `?.` gives no value."""
    try:
        for member in members:
            value = step(value, member)
        return value
    except Missed:
        return None


def of_key(text, members):
    """A loop's key has no members."""
    if members:
        raise Fault("render error", "cannot index into string", members[0].span)
    return text


def of_state(state, members):
    """`loop` is a map of three, whose members have none."""
    entries = {"first": state.index == 0, "index": state.index, "last": state.index + 1 == state.count}
    if not members:
        return entries
    member, others = members[0], members[1:]
    if isinstance(member.access, int):
        raise Fault("render error", "cannot index into map with integer", member.span)
    if member.access not in entries and not member.optional:
        raise Fault("render error", "not found in map", member.span)
    found = entries.get(member.access)
    if others:
        raise Fault("render error", f"cannot index into {kind(found)}", others[0].span)
    return found


def bound(binding, members):
    """What a binding answers to the members after the first."""
    if isinstance(binding, Plain):
        return walk(binding.value, members)
    return of_key(binding.text, members) if isinstance(binding, Key) else of_state(binding, members)


def lookup(bindings, root, members):
    """What a path means: the innermost binding of its first member's name answers, or else the context."""
    for binding in bindings:
        if binding.name == members[0].access:
            return bound(binding, members[1:])
    try:
        value = step(root, members[0])
    except Missed:
        return None
    except Fault:
        raise Fault("render error", "not found in this scope", members[0].span) from None
    return walk(value, members[1:])
