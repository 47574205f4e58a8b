"""Faults: their kind, template, reason and span, and the picture that shows them."""
from .texts import columns, part


class Fault(Exception):
    """A fault: its kind, its reason if it has one, its span if it has one, and the name and the text of its template."""

    def __init__(self, kind, reason=None, span=None):
        super().__init__(kind, reason, span)
        self.kind = kind
        self.reason = reason
        self.span = span
        self.template = None
        self.source = None

    def inside(self, name, source):
        """The same fault in a template."""
        self.template, self.source = name, source
        return self

    def line(self):
        """The one line that reports it."""
        return self.kind if self.reason is None else f"{self.kind}: {self.reason}"

    def pretty(self):
        """The lines that report it, with the picture of its span; the one line if there is no reason or no span."""
        if self.reason is None or self.span is None:
            return self.line()
        number, column, width, line = picture(self.source, self.span)
        margin = " " * len(str(number))
        marks = "^" * width + "-" * (3 - width)
        name = "<anonymous>" if self.template is None else self.template
        return (f"{self.kind}\n\n {margin}--> {name}:{number}:{column}\n {margin} |\n {number} | {line}\n"
                f" {margin} | {' ' * (column - 1)}{marks}\n {margin} |\n {margin} = reason: {self.reason}\n")


def picture(source, span):
    """The number of the line in which a span begins, its column there, how many columns are marked, and the line."""
    before = part(source, (0, span[0]))
    line_before = before.rpartition("\n")[2]
    behind = part(source, (span[0], len(source))).partition("\n")[0]
    return before.count("\n") + 1, columns(line_before) + 1, max(1, columns(part(source, span))), line_before + behind
