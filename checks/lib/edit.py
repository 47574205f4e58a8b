"""Wrong edits: files crates/NAME/edits/*.edit, each with code that the crate's contracts rule out.

A file has a line `refused: GOAL`, then a line `file: PATH`, and pairs of lines `old: TEXT` and `new: TEXT`. Each old text is in
that file once, at the time when its pair is applied, and each text is a line or a part of one. `GOAL` is what the edit leaves
open: a clause by its name, the name of a goal, or `ensures`, `requires` or `invariant` if the goal has no clause's name.
An edit of a line outside of functions may have a line `function: NAME` too: the one that it makes wrong, by the name that a check's
lines give it, below the crate. An edit of one function may have a line `goals: NAME, NAME`, as `checks/edits --goals` writes it:
all that it leaves open.
"""
import copy
import dataclasses
import os
import re

PART = re.compile(r"(file|old|new|refused|function|goals):(?: (.*))?\Z")


class BadEdit(Exception):
    """An edit that can't be read or applied."""


class Edit:
    """An edit: the texts that it makes of files, the lines that it changes, and the functions that have these lines."""

    def __init__(self, path, crate, functions):
        self.name = os.path.basename(path).removesuffix(".edit")
        self.path, self.refused, self.of, self.goals, self.texts, self.bad, self.twin_of = path, "", "", (), {}, None, None
        try:
            with open(path, encoding="utf-8") as file:
                self.apply(file.read().split("\n"), crate)
        except (BadEdit, OSError, UnicodeDecodeError) as error:
            self.bad = str(error)
        self.changes = {} if self.bad else changes_of(self.texts, crate)
        self.functions = {it for it in map(lambda place: function_at(functions, *place), self.changes) if it}
        self.cycles = {it.cycle for it in self.functions if it.cycle}

    def apply(self, lines, crate):
        """Makes the texts that the lines of the edit's file ask for."""
        path, old, pairs = None, None, 0
        for line in lines:
            part = PART.match(line)
            if not part:
                if line.strip():
                    raise BadEdit(f"no line of an edit reads {line[:60]!r}")
                continue
            word, text = part[1], part[2] or ""
            if word == "refused":
                self.refused = text.strip()
            elif word == "function":
                self.of = text.strip()
            elif word == "goals":
                self.goals = tuple(filter(None, text.strip().split(", ")))
            elif word == "file":
                path = text.strip()
                self.texts.setdefault(path, text_of(crate, path))
            elif word == "old":
                old = text
            elif path is None or not old:
                raise BadEdit("a line `new:` comes before a line `file:` or `old:`")
            else:
                self.put(path, old, text)
                old, pairs = None, pairs + 1
        if not pairs:
            raise BadEdit("it has no pair of lines `old:` and `new:`")

    def put(self, path, old, new):
        """Puts a text in place of another one, which is in the file once."""
        times = self.texts[path].count(old)
        if times != 1:
            raise BadEdit(f"a text `old:` is {times} times in {path}, and not once: {old[:60]}")
        self.texts[path] = self.texts[path].replace(old, new)

    def is_of_functions(self):
        """Whether each line that it changes is of a function, or says nothing by itself (an import, a comment)."""
        is_said = lambda place: self.changes[place][0].startswith(("use ", "//", "ghost use "))
        inside = lambda place: any(it.file == place[0] and it.has(place[1]) for it in self.functions)
        return bool(self.functions) and all(is_said(place) or inside(place) for place in self.changes)

    def is_of_one(self):
        """Whether it is of one function, which is in no cycle of calls."""
        return len(self.functions) == 1 and not self.cycles

    def can_be_twin(self):
        """Whether a twin of the function that it changes can stand beside that in a copy: each line that it changes is the function's."""
        return self.is_of_one() and all(it.can_have_twin() and it.file == path and it.has(line) for it in self.functions for path, line in self.changes)

    def as_twin(self, number):
        """Returns the edit made in a twin of its function. Where that stands, the copy says (`texts_with`)."""
        found = copy.copy(self)
        found.twin_of, found.functions = self, {dataclasses.replace(it, suffix=f"_twin{number}") for it in self.functions}
        return found

    def plain(self):
        """Returns the edit made in its function itself."""
        return self.twin_of or self

    def write_goals(self, names):
        """Writes the names of the goals that it leaves open into its file, in place of those that stand there."""
        with open(self.path, encoding="utf-8") as file:
            lines = [line for line in file.read().split("\n") if not line.startswith("goals:")]
        at = next(at for at, line in enumerate(lines) if line.startswith("file:"))
        with open(self.path, "w", encoding="utf-8") as file:
            file.write("\n".join([*lines[:at], *[f"goals: {', '.join(names)}"] * bool(names), *lines[at:]]))

    def units(self):
        """Returns what no other edit of one copy may touch: its lines and functions."""
        return {(it.file, it.first, "function") for it in self.functions} | {*self.changes}


def text_of(crate, path):
    """Returns the text of a file of src/ of the crate."""
    if os.path.normpath(path) != path or not path.startswith("src/"):
        raise BadEdit(f"{path} is not below src/")
    with open(os.path.join(crate, path), encoding="utf-8") as file:
        return file.read()


def changes_of(texts, crate):
    """Returns the lines that differ, by file and number (from 0): the old line and the new one."""
    found = {}
    for path, text in texts.items():
        pairs = zip(text_of(crate, path).split("\n"), text.split("\n"), strict=True)
        found |= {(path, number): pair for number, pair in enumerate(pairs) if pair[0] != pair[1]}
    return found


def function_at(functions, path, line):
    """Returns the function of which the line is, if there is one."""
    return next((it for it in functions.get(path, []) if it.has(line)), None)


def with_twins(batches, can_be_told):
    """Returns the copies with edits of later ones in the first one, each in a twin of the function that it changes, if that can have one and
    a check can tell of that."""
    first, *others = batches or [[]]
    movable = [edit for batch in others for edit in batch if edit.can_be_twin() and can_be_told(edit)]
    twins = [edit.as_twin(number) for number, edit in enumerate(movable, 1)]
    return [batch for batch in ([*first, *twins], *([it for it in batch if it not in movable] for batch in others)) if batch]


def batches_of(edits, with_cycles=False):
    """Puts edits into few copies, of which none has a function or a line twice, nor, if so asked, two of one cycle of calls."""
    batches, taken = [], []
    for edit in edits:
        units = edit.units() | (edit.cycles if with_cycles else set())
        at = next((at for at, found in enumerate(taken) if not units & found), len(batches))
        if at == len(batches):
            batches.append([])
            taken.append(set())
        batches[at].append(edit)
        taken[at] |= units
    return batches


def texts_with(edits, crate):
    """Returns the texts of the files with all these edits in them. Twins stand at the end of their files, and know then where."""
    lines = {}
    for edit in (it for it in edits if not it.twin_of):
        for (path, number), (_, new) in edit.changes.items():
            lines.setdefault(path, text_of(crate, path).split("\n"))[number] = new
    for edit in (it for it in edits if it.twin_of):
        (function,), (twin,) = edit.plain().functions, edit.functions
        found = lines.setdefault(function.file, text_of(crate, function.file).split("\n"))
        own, twin = function.twin(edit.texts[function.file].split("\n"), twin.suffix, len(found))
        edit.functions = {twin}
        found += [*own, ""]
    return {path: "\n".join(found) for path, found in lines.items()}
