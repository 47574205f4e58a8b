"""The rows of docs/SYNTAX.md that say what is wrong: each has to be a case, with its reason and its span.

Not asked for are rows whose reason is what a function, a formatter or a source says.
"""
import os
import re

from cases import TOP

COLUMNS = ["what is wrong", "example", "reason", "span"]


def cells(line):
    """The cells of a table's row."""
    return [cell.strip() for cell in re.split(r"(?<!\\)\|", line.strip().strip("|"))]


def code(cell):
    """What a cell has between its first backticks: one of them, or two."""
    found = re.match(r"`` (.*?) ``|``(.*?)``|`(.*?)`", cell.replace("\\|", "|"))
    return next((part for part in found.groups() if part is not None), None) if found else None


def rows():
    """The example, the reason and the span of each row."""
    with open(os.path.join(TOP, "docs/SYNTAX.md"), encoding="utf-8") as file:
        lines = file.read().splitlines()
    inside, found = False, []
    for line in lines:
        inside = line.startswith("|") and (inside or cells(line) == COLUMNS)
        if inside and code(cells(line)[1]) and code(cells(line)[2]):
            _, example, reason, span = cells(line)
            places = re.findall(r"(\d+)\.\.(\d+)", span)
            found.append((code(example), code(reason), [int(end) for end in places[-1]] if places else None))
    return found


def missing(cases):
    """The rows that are no case."""
    errors = [(case["source"], case["answer"]["error"]) for case in cases if "error" in case["answer"]]
    known = [(source, error["reason"], error["span"]) for source, error in errors]
    return [example for example, reason, span in rows() if (example, reason, span) not in known]
