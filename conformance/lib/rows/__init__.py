"""The rows that cases are made of: tables by subject, with the answer that the rules give by hand where one is written."""
from typing import NamedTuple


class Row(NamedTuple):
    """A case without its number: what is rendered, and the answer by hand, none if it is left to the definitions."""

    case: dict
    wanted: object = None


def row(source, context=None, wanted=None, name="page", **more):
    """A row; a template's name of none is left out."""
    case = {"source": source} | ({"name": name} if name is not None else {}) | ({"context": context} if context else {}) | more
    return Row(case, wanted)


def gives(source, text, context=None, **more):
    """A row whose template gives this text; without one the answer is left to the definitions."""
    return row(source, context, None if text is None else {"text": text}, **more)


def fails(source, reason, m, n, written="", context=None, kind="render error", template="page", **more):
    """A row whose rendering fails at a span, after some text; without a reason the answer is left to the definitions."""
    if reason is None:
        return row(source, context, **more)
    name = more.get("name", "page") if template == "page" else template
    error = {"kind": kind, "reason": reason, "span": [m, n], "template": name}
    return row(source, context, {"written": written, "error": error}, **more)


def wrong(source, reason, m, n, **more):
    """A row whose text has no tree."""
    return fails(source, reason, m, n, kind="invalid syntax", **more)


def agrees(wanted, answer):
    """Whether an answer is the one by hand, which may leave out parts of an error."""
    if wanted is None or wanted == answer:
        return True
    if "error" not in wanted or "error" not in answer or wanted["written"] != answer["written"]:
        return False
    return all(answer["error"][part] == value for part, value in wanted["error"].items())
