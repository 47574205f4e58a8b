"""The answer to a case: the text, or what was written and the error."""
from .callables import OWN, STANDARD, Formatter, html, usual
from .cutting import Refused
from .delimiters import USUAL, delimiters_of
from .faults import Fault
from .meaning import Engine, Meaning
from .trees import tree_of
from .values import in_order


class WriteFailed(Exception):
    """The writer failed."""


class Writer:
    """What is written to: a text, or a writer that takes some bytes a call and fails at a call."""

    def __init__(self, takes=None, fails_at=None):
        self.takes, self.fails_at = takes, fails_at
        self.received, self.calls = b"", 0

    def write(self, text):
        """Takes a text, as many bytes a call as it takes; an empty one is no call."""
        data = text.encode()
        if self.takes is None:
            self.received += data
            return
        while data:
            self.calls += 1
            if self.calls == self.fails_at:
                raise WriteFailed
            self.received += data[:self.takes]
            data = data[self.takes:]


def value_of(given):
    """The value that JSON denotes: maps in the order of their keys' bytes."""
    if isinstance(given, dict):
        return in_order([(key, value_of(one)) for key, one in given.items()])
    return [value_of(one) for one in given] if isinstance(given, list) else given


def engine_of(case):
    """The engine that a case describes; its templates have no faults."""
    delimiters = delimiters_of(case.get("syntax", USUAL))
    sources = {name: text.encode() for name, text in case.get("templates", {}).items()}
    named = {name: OWN[name] for name in case.get("callables", [])}
    if case.get("standard"):
        named |= STANDARD
    default = Formatter(usual)
    if case.get("escape") == "html":
        default = Formatter(html)
        named["verbatim"] = Formatter(usual)
    if "default_formatter" in case:
        default = OWN[case["default_formatter"]]
    templates = {name: (text, tree_of(text, delimiters)) for name, text in sources.items()}
    return Engine(templates, named, default, case.get("depth", 64))


def error_of(fault):
    """An error's parts."""
    parts = {"kind": fault.kind, "reason": fault.reason, "template": fault.template, "span": fault.span and list(fault.span)}
    return parts | {"picture": fault.pretty()}


def refused(case, source, at):
    """The error of a text that has no tree; rendering a text gives it no name, adding a template does."""
    fault = Fault("invalid syntax", at.reason, at.span)
    return error_of(fault.inside(case.get("name"), source))


def answer(case):
    """What a case's template gives: `text`, or `written` and the parts of the error."""
    source = case["source"].encode()
    try:
        tree = tree_of(source, delimiters_of(case.get("syntax", USUAL)))
    except Refused as at:
        return {"written": "", "error": refused(case, source, at)}
    engine = engine_of(case)
    if "name" in case:
        engine.templates[case["name"]] = (source, tree)
    writer = Writer(**case.get("writer", {}))
    try:
        Meaning(engine, writer.write).template(case.get("name"), source, tree, value_of(case.get("context", {})))
    except Fault as fault:
        return {"written": writer.received.decode(), "error": error_of(fault)}
    except WriteFailed:
        return {"written": writer.received.decode(), "error": error_of(Fault("io error"))}
    return {"text": writer.received.decode()}
