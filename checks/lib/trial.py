"""The trial of a crate's edits: many in one copy where they change different functions, one by one where that tells nothing."""
import dataclasses
import os
import re
import shutil
import signal

import edit as edits_module
import functions as functions_module
import prover


# An edit that leaves more goals open is tried without a line that names them.
MOST_GOALS = 8


@dataclasses.dataclass
class Result:
    """What an edit came to: whether that is as it must be, in words, and the goals that it left open."""

    is_right: bool
    says: str
    goals: tuple = ()


class Trial:
    """The trial of one crate's edits."""

    def __init__(self, module, crate, kept, known):
        self.module, self.crate, self.kept = module, crate, kept
        self.functions = functions_in(crate)
        folder = f"{crate.folder}/edits"
        paths = [f"{folder}/{name}" for name in sorted(os.listdir(folder)) if name.endswith(".edit")]
        self.edits = [edits_module.Edit(path, crate.folder, self.functions) for path in paths]
        self.results = {it.name: Result(False, f"BAD EDIT: {it.bad}") for it in self.edits if it.bad}
        self.known, self.seconds, self.batches, self.astray = set(known), 0.0, 0, []
        self.alone = [it for it in self.edits if not it.bad and not it.is_of_functions() and not it.of]

    def run(self):
        """Tries each edit."""
        take_kept(self.crate, self.kept)
        sound = [it for it in self.edits if not it.bad]
        again = []
        for batch in edits_module.with_twins(edits_module.batches_of([it for it in sound if it.is_of_functions()]), self.can_be_told_of_twin):
            again += [it.plain() for it in self.try_batch(batch, is_last=False)]
        for batch in edits_module.batches_of(again, with_cycles=True):
            self.alone += self.try_batch(batch, is_last=True)
        for edit in (it for it in sound if it.of and not it.is_of_functions()):
            edit.functions |= self.named(edit.of)
            self.alone += self.try_batch([edit], is_last=True) if edit.functions else [edit]
        for edit in self.alone:
            self.try_alone(edit.plain())

    def write_goals(self):
        """Tries each edit without what its file says of the goals that it leaves open, and writes that there."""
        for edit in self.edits:
            edit.goals = ()
        self.run()
        for edit in self.edits:
            result = self.results.get(edit.name)
            if result and not edit.bad and not edit.of:
                names = [it for it in result.goals if re.fullmatch(r"[\w-]+", it)]
                edit.write_goals(names if edit.is_of_one() and len(names) <= MOST_GOALS else ())

    def named(self, name):
        """Returns the functions of a name, as a check's lines give it below the crate."""
        return {it for found in self.functions.values() for it in found if self.name_of(it) == f"{self.crate.name}::{name}"}

    def name_of(self, function):
        """Returns the name under which a check's lines tell of the function, or None if that is not sure."""
        return functions_module.name_of(function, self.crate.name, self.known)

    def has_name(self, edit):
        """Whether the names of the functions that the edit changes are sure."""
        return all(map(self.name_of, edit.functions))

    def can_be_told_of_twin(self, edit):
        """Whether a check tells of the edit made in a twin: names are sure, and the functions' answers are not those of functions that call
        themselves, which a twin, as it calls the function itself, can't be given."""
        return self.has_name(edit) and not any(prover.has_proof_of_cycle(self.crate.folder, self.name_of(it)) for it in edit.functions)

    def check(self, batch, only=(), assumed=(), goals=None):
        """Checks a copy with these edits, once more if the check was killed, most likely for memory."""
        texts = edits_module.texts_with(batch, self.crate.folder)
        if assumed:
            texts = self.without_bodies(texts, set(assumed))
        names = [tuple(self.name_of(it) for one in (edit.plain(), edit) for it in one.functions) for edit in batch if edit.twin_of]
        for _ in range(2):
            said, seconds = prover.check(self.module, self.crate, texts, self.kept, only, assumed, goals, names)
            self.seconds += seconds
            if said.status != -signal.SIGKILL:
                break
        return said

    def checked(self, batch, goals):
        """Checks a copy with these edits, in which the contracts of the other functions are taken as they are; if such a copy can't be read, one in
        which they are proved. Returns what was said, and the places that can't be read."""
        for others in (self.others(batch), ()):
            self.batches += 1
            said = self.check(batch, self.scope(batch), others, goals)
            places = said.unread({path for edit in batch for path in edit.texts})
            if not others or not places or any(self.is_at(edit, *place[:2]) for edit in batch for place in places):
                break
        return said, places

    def try_batch(self, batch, is_last):
        """Tries edits in one copy, and returns those of which that tells nothing and which are to be tried with fewer, or alone."""
        said, unread = None, []
        while batch:
            goals = {} if is_last else self.goals_left(batch)
            said, places = self.checked(batch, goals)
            unread = [edit for edit in batch if any(self.is_at(edit, *place[:2]) for place in places)]
            if not places:
                break
            self.alone += unread or batch
            batch = [edit for edit in batch if edit not in unread] if unread else []
        if not batch:
            return []
        if not said.is_verdict():
            self.alone += batch
            return []
        self.known |= said.known()
        self.find_astray(batch, said)
        return [edit for edit in batch if not self.is_told(edit, said, is_last, goals)]

    def scope(self, batch):
        """Returns what a check of these edits has to read: functions, or whole modules where their names are not known yet."""
        functions = {it for edit in batch for it in edit.functions}
        names = [self.name_of(it) for it in functions]
        if all(names):
            return sorted(set(names))
        modules = {"::".join(functions_module.module_of(self.crate.name, it.file)[1:]) for it in functions}
        return [] if "" in modules else sorted(modules)

    def others(self, batch):
        """Returns the names of the functions that no edit of the batch changes, if these are sure. One in a cycle of calls is not among them."""
        edited = {it for edit in batch for it in edit.functions}
        every = {it for found in self.functions.values() for it in found if it.has_body and not it.cycle}
        return sorted({self.name_of(it) for it in every - edited} - {self.name_of(it) for it in edited} - {None})

    def without_bodies(self, texts, assumed):
        """Returns the texts of all files, in which the functions that are assumed to be proved have a body of nothing."""
        found = {path: texts.get(path) or edits_module.text_of(self.crate.folder, path) for path in self.functions}
        return {path: functions_module.without_bodies(text, [it for it in self.functions[path] if self.name_of(it) in assumed]) for path, text in found.items()}

    def is_at(self, edit, file, line):
        """Whether a place is in one of the functions that the edit changes."""
        return any(it.file == file and it.first <= line <= it.last for it in edit.functions)

    def goals_of(self, edit, said, is_last):
        """Returns the open goals of the functions that the edit changes. In a cycle of calls, which has one proof, a goal counts by its place, or by the function that its name begins with."""
        near = [it for it in said.goals if self.is_at(edit, *it.place)]
        near += [goal for cycle, goal in said.of_cycles for it in edit.functions if it.cycle == cycle and goal.name.split("-")[0].endswith(it.name)]
        if edit.cycles and not is_last:
            return near
        names = [self.name_of(it) for it in edit.functions]
        return near + [goal for name in names if name in said.open for goal in said.open[name]]

    def goals_left(self, batch):
        """Returns the goals that edits say that they leave open, and that no file answers, by the function that each changes. One in a cycle of
        calls is not among them."""
        found = {}
        for edit in (it for it in batch if it.goals and it.is_of_one() and self.has_name(it)):
            (name,), (of,) = map(self.name_of, edit.functions), map(self.name_of, edit.plain().functions)
            found[name] = prover.unanswered(self.crate.folder, of, edit.goals)
        return {name: goals for name, goals in found.items() if goals}

    def is_told(self, edit, said, is_last, answered):
        """Whether the check tells of the edit that it is refused, and not that a goal that was answered for it is not there."""
        goals = self.goals_of(edit, said, is_last)
        ours = {name for it in edit.functions for name in answered.get(self.name_of(it), ())}
        if not goals or any(it.is_of_names() and it.name in ours for it in goals):
            return False
        self.results[edit.name] = judged(edit, goals)
        return True

    def find_astray(self, batch, said):
        """Finds functions that no edit of the batch changes and that fail by themselves."""
        edited = {self.name_of(it) for edit in batch for it in edit.functions}
        if not any(edit.cycles for edit in batch):
            self.astray += [(name, said.open[name][0].says[:160]) for name in sorted(set(said.open) - edited)]

    def try_alone(self, edit):
        """Tries an edit by itself."""
        said = self.check([edit])
        places = said.unread(set(edit.texts))
        goals = [*said.goals, *(goal for found in said.open.values() for goal in found), *(goal for _, goal in said.of_cycles)]
        if places:
            path, line, says = places[0]
            self.results[edit.name] = Result(False, f"BAD EDIT: it can't be read: {path}:{line + 1}: {says}")
        elif said.status == 0:
            self.results[edit.name] = Result(False, "NOT REFUSED: the crate is proved with it")
        elif said.status == 1 and goals:
            self.results[edit.name] = judged(edit, goals)
        else:
            last = said.text.rstrip().rpartition("\n")[2][:160]
            self.results[edit.name] = Result(False, f"NOT TRIED: the check ended with status {said.status}: {last}")


def functions_in(crate):
    """Returns the functions of the crate's files, by their path."""
    found = {}
    for at, _, names in os.walk(f"{crate.folder}/src"):
        for name in names:
            path = os.path.relpath(f"{at}/{name}", crate.folder)
            with open(f"{at}/{name}", encoding="utf-8") as file:
                found[path] = functions_module.functions_of(path, file.read())
    return found


def take_kept(crate, to):
    """Has the checks begin with what the crate's own checks kept, if they did. A check replaces a file of proved modules, and writes into none."""

    def copy(one, other):
        return os.link(one, other) if one.endswith(".oantt") else shutil.copy2(one, other)

    kept = f"{crate.folder}/out/incremental"
    if os.path.isdir(kept):
        try:
            shutil.copytree(kept, to, copy_function=copy)
        except (OSError, shutil.Error):
            shutil.rmtree(to, ignore_errors=True)


def judged(edit, goals):
    """Returns the result of an edit that leaves goals open: whether one of them is the one that it names."""
    names = tuple(dict.fromkeys(it.name for it in goals if it.name))
    shown = ", ".join(names) or goals[0].says[:160]
    if all(it.is_of_names() for it in goals):
        return Result(True, f"refused, but only as a proof names what it takes away: {shown}", names)
    if not edit.refused:
        return Result(False, f"refused for {shown}, and it names no goal", names)
    if not any(it.is_named(edit.refused) for it in goals):
        return Result(False, f"refused for {shown}, and not for {edit.refused}", names)
    return Result(True, f"refused for {edit.refused}", names)
