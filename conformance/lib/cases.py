"""The cases: made of the rows, written to and read from conformance/cases."""
import importlib
import json
import os

from reference.answers import answer
from rows import agrees

TOP = os.path.dirname(os.path.dirname(os.path.dirname(os.path.abspath(__file__))))
FOLDER = os.path.join(TOP, "conformance/cases")
# The subjects, each a module of rows and a file of cases.
SUBJECTS = ["syntax", "points", "literals", "paths", "blocks", "loops", "trimming", "comments", "delimiters", "includes",
            "calls", "pictures", "writers"]


class Differs(Exception):
    """An answer by hand is not that of the definitions."""


def same(case):
    """What makes two cases alike: all but their numbers and answers."""
    return json.dumps({key: part for key, part in case.items() if key not in ("id", "answer")}, sort_keys=True)


def answered(row):
    """A row's case with its answer, which has to be the one by hand where there is one."""
    given = answer(row.case)
    if not agrees(row.wanted, given):
        raise Differs(f"{row.case}\n  by hand            {row.wanted}\n  by the definitions {given}")
    return {**row.case, "answer": given}


def made():
    """All cases by subject, no two alike."""
    known, cases = set(), {}
    for subject in SUBJECTS:
        cases[subject] = []
        for row in importlib.import_module("rows." + subject).rows():
            if same(row.case) not in known:
                known.add(same(row.case))
                cases[subject].append({"id": f"{subject}-{len(cases[subject]) + 1:04}", **answered(row)})
    return cases


def by_hand():
    """How many rows have an answer by hand."""
    return sum(row.wanted is not None for subject in SUBJECTS for row in importlib.import_module("rows." + subject).rows())


def lines(cases):
    """Cases as lines of JSON, in ASCII."""
    return "".join(json.dumps(case) + "\n" for case in cases)


def path(subject):
    """The file of a subject."""
    return os.path.join(FOLDER, subject + ".jsonl")


def read():
    """All cases, as they are in the files."""
    found = []
    for subject in SUBJECTS:
        with open(path(subject), encoding="utf-8") as file:
            found += [json.loads(line) for line in file]
    return found
