"""Checks of copies of a crate, and what they say of its functions.

A check is `rattle check`, called as the kit's `rt` calls it, over the libraries that `rt ci`, or `rt lib`, has built in out/rlib.
"""
import collections
import dataclasses
import importlib.machinery
import importlib.util
import os
import pathlib
import re
import shutil
import subprocess
import sys
import tempfile

# What a function's line says where it fails for another one.
OF_ANOTHER = re.compile(r"it \w+ .*not proved|it waits for the proof of .*")
# What an error of a proof says that names what an edit took away: it says little of the contract.
OF_NAMES = re.compile(r"has no field|is not in scope|has no `|was not admitted")
# An error by which the text could not be read, so that nothing was tried.
UNREAD = re.compile(r"is not in scope|has no field|is no name|operand is missing|expected the end|cannot continue")
KINDS = "proved|not proved|no proof|could not tell"
# What the prover tries by itself of a goal without an answer, and where its names come from.
TRIED = "first_of (search rules, grind (arith, common_steps))"
TRIED_NAMES = {"rules": "Rattle.std.proofs.Common", "arith": "Rattle.std.proofs.Common", "common_steps": "Rattle.std.proofs.lemmas.Grind"}


def kit():
    """Returns the module of the kit's command `rt`, which knows the crates of a repository and how to call the prover."""
    path = os.path.realpath(shutil.which("rt") or sys.exit("edits: the command rt is not on the path"))
    sys.path.insert(0, os.path.dirname(path))
    sys.dont_write_bytecode = True
    loader = importlib.machinery.SourceFileLoader("rt", path)
    module = importlib.util.module_from_spec(importlib.util.spec_from_loader("rt", loader))
    sys.modules["rt"] = module
    loader.exec_module(module)
    return module


def crate_named(module, top, name):
    """Returns the crate of a name in the repository in a folder."""
    crates = {it.name: it for it in module.rtlib.crates_below(top)}
    return crates.get(name) or sys.exit(f"no crate is named {name}")


def write_stamp(crate):
    """Writes at a crate's library the sum of what it was made from, as the kit's `rt` writes it, so that `rt lib` takes it as it is."""
    with open(os.path.join(os.path.dirname(crate.rlib), "stamp"), "w", encoding="utf8") as file:
        file.write(crate.stamp())


@dataclasses.dataclass
class Goal:
    """A goal that is not proved: its name, its place in src/ (a file and a line from 0) if that is known, and what is said of it."""

    name: str
    place: tuple
    says: str

    def is_of_names(self):
        """Whether it is open only as its proof names what an edit took away."""
        return bool(OF_NAMES.search(self.says))

    def is_named(self, name):
        """Whether it is the goal, or the clause, of that name, or of that kind: `ensures` is all that a function returns with,
        `requires` what it owes a callee, `invariant` what a loop keeps, `measure` that it ends."""
        return name in (self.name, self.name.rpartition("-clause-")[2], self.kind())

    def kind(self):
        """Returns the kind of the goal. In a cycle of calls a goal's name begins with its function's."""
        if "expected a measure" in self.says:
            return "measure"
        own = self.name.partition("-")[2] if "::" in self.name else self.name
        if re.search("-(preserved|init)(-|$)", own):
            return "invariant"
        return "ensures" if re.match(r"(\w+-)?returns", own) else "requires" if "-requires" in own else ""


class Said:
    """What a check said: the functions that are proved, those that wait for others, and the open goals of those that fail by themselves."""

    def __init__(self, text, status, assumed=()):
        self.text, self.status, self.is_assuming = text, status, bool(assumed)
        self.proved, self.waiting, self.open = {*assumed}, set(), collections.defaultdict(list)
        self.goals, self.of_cycles = [], []
        errors = self.read_errors()
        self.read_goals()
        for name, kind, why in re.findall(rf"^(?:fn|impl) (\S+): ({KINDS})(.*)", text, re.M):
            if name not in assumed:
                self.read_function(name, kind, why, errors_of(name, errors))

    def read_errors(self):
        """Returns the errors of proofs, by the folder of the proof; those of a cycle of calls are put into `of_cycles`."""
        errors = collections.defaultdict(list)
        for folder, says in re.findall(r"^(?:\./)?proofs/(\S+)/\w+\.antt:\d+:\d+: error: (.*)", self.text, re.M):
            name = re.match(r"`([^`]*)`", says)
            goal = Goal(name[1] if name else "", (), says)
            errors[folder].append(goal)
            if os.path.basename(folder).startswith("+"):
                self.of_cycles.append((os.path.basename(folder)[1:], goal))
        return errors

    def read_goals(self):
        """Reads the goals whose place is said."""
        for file, line, says in re.findall(r"^(?:note: )?(?:\./)?(src/\S+?):(\d+):\d+: (.*not proved.*)", self.text, re.M):
            names = re.findall(r"\(`([^`]*)`\)", says)
            self.goals.append(Goal(names[-1] if names else "", (file, int(line) - 1), says))

    def read_function(self, name, kind, why, errors):
        """Reads a function's line."""
        reasons = [it for it in re.split("[;:] ", why) if it and not OF_ANOTHER.fullmatch(it)]
        waits = kind == "no proof" or "it waits for the proof of" in why or self.is_assuming
        if kind == "proved":
            self.proved.add(name)
        elif reasons or errors or not waits:
            searched = [Goal(it, (), why) for it in re.findall(r"did not prove `([^`]*)`", why)]
            self.open[name] += errors + searched or [Goal("", (), f"{kind} {why}")]
        else:
            self.waiting.add(name)

    def known(self):
        """Returns the names of all functions of which the check told."""
        return self.proved | self.waiting | {*self.open}

    def is_verdict(self):
        """Whether the prover came to an end: it was not killed, and read the text."""
        return self.status in (0, 1, 3) and bool(re.search(r"^(?:logic=|only=)", self.text, re.M))

    def unread(self, changed):
        """Returns the places of what could not be read in src/, specs/ or a changed file, with what is said of each."""
        found = []
        for path, line, says in re.findall(r"^(?:\./)?(\S+?):(\d+):\d+: error(?:\[[\w-]+\])?: (.*)", self.text, re.M):
            goal = re.match(r"`[^`]*`: ", says)
            bare = re.sub(r"`[^`]*`", "", says)
            if (path in changed or path.startswith(("src/", "specs/"))) and (not goal or UNREAD.search(bare)):
                found.append((path, int(line) - 1, says[:200]))
        return found


def own_cycle(name):
    """Returns the path, below proofs/, of the proof of a function that calls itself: it has a plus before the function's name."""
    *above, last = name.split("::")[1:]
    return os.path.join(*above, f"+{last}")


def has_proof_of_cycle(folder, name):
    """Whether files of a crate's folder are of the proof of a function as one that calls itself."""
    return os.path.isdir(os.path.join(folder, "proofs", own_cycle(name)))


def errors_of(name, errors):
    """Returns the errors of a function's proof, of those by folder."""
    return [it for own in (os.path.join(*name.split("::")[1:]), own_cycle(name)) for it in errors[own]]


def times_of(kept, begun):
    """Returns the modules that a check which began then has kept in a folder, each with its seconds, in the order of the check: the prover keeps
    a file of each, and the time from one to the next is that module's."""
    paths = [os.path.join(at, name) for at, _, names in os.walk(kept) for name in names]
    files = sorted((os.stat(path).st_mtime, os.path.basename(path)) for path in paths)
    files = [it for it in files if it[0] >= begun]
    before = [begun, *(time for time, _ in files)]
    return [(re.sub(r"(\.decls)?\.oantt$", "", name), time - last) for (time, name), last in zip(files, before)]


def assume(room, names):
    """Has the check of the crate in a folder take these functions' contracts as they are: an axiom stands in place of each proof."""
    for name in names:
        crate, *path = name.split("::")
        folder = os.path.join(room, "proofs", *path)
        os.makedirs(folder, exist_ok=True)
        for answers in ("Answers.antt", "Invariants.antt"):
            if os.path.exists(f"{folder}/{answers}"):
                os.remove(f"{folder}/{answers}")
        with open(f"{folder}/Proof.antt", "w", encoding="utf-8") as file:
            statement = ".".join(["Rattle", crate, "proofs", *path, "Statement"])
            file.write(f"use {statement}.{{statement}}\n\naxiom pub {path[-1]}_spec : {{M : Type 1}} → statement M\n")


def give_to_twin(crate, room, name, twin):
    """Gives a twin of a function, by their names, the answers and invariants that the function has in the crate, in the copy in a folder."""
    of, path = (pathlib.PurePath("proofs", *it.split("::")[1:]) for it in (name, twin))
    if os.path.isdir(crate / of):
        shutil.copytree(crate / of, room / path)
        for file in pathlib.Path(room / path).rglob("*.antt"):
            file.write_text(of_twin(file.read_text(encoding="utf-8"), name.split("::"), twin.split("::")), encoding="utf-8")


def of_twin(text, name, twin):
    """Returns the text of a function's proof with its twin in the function's place, by the parts of their paths."""
    inside = re.escape(".".join(name[1:]))
    text = re.sub(rf"(Rattle\.{name[0]}\.(?:proofs|specs\.contracts)\.){inside}(?=[.\s])", rf"\g<1>{'.'.join(twin[1:])}", text)
    return re.sub(rf"(?<![\w.-]){re.escape(name[-1])}_spec\b", f"{twin[-1]}_spec", text)


def answers_of(folder, function):
    """Returns the path of a function's answers in a crate's folder, and their text."""
    path = os.path.join(folder, "proofs", *function.split("::")[1:], "Answers.antt")
    if not os.path.exists(path):
        return path, ""
    with open(path, encoding="utf-8") as file:
        return path, file.read()


def unanswered(folder, function, names):
    """Returns those of a function's goals, by their names, that no file of the crate's folder answers."""
    text = answers_of(folder, function)[1]
    return tuple(name for name in names if not re.search(rf"^pub {re.escape(name)} :", text, re.M))


def answer(room, goals, tried=TRIED):
    """Answers goals of functions of the crate in a folder, by their names, by what the prover tries by itself, or by less: where they stay open it
    then tries no more, and does not look for what to write."""
    for function, names in goals.items():
        path, text = answers_of(room, function)
        if not os.path.exists(os.path.join(os.path.dirname(path), "Proof.antt")):
            os.makedirs(os.path.dirname(path), exist_ok=True)
            with open(path, "w", encoding="utf-8") as file:
                file.write(answered(function, names, text, tried))


def answered(function, names, text, tried, note=""):
    """Returns the text of a function's answers with those of more goals, by their names, under a comment if there is one."""
    crate, *path = function.split("::")
    lines = text.rstrip("\n").split("\n") if text else []
    uses = [line for line in lines if line.startswith("use ")]
    rest = [line for line in lines if not line.startswith("use ")]
    for name, place in TRIED_NAMES.items():
        if re.search(rf"\b{name}\b", tried):
            bring(uses, place, name)
    if not any(line.endswith(".Goals as goal") for line in uses):
        uses.append(f"use {'.'.join(['Rattle', crate, 'proofs', *path])}.Goals as goal")
    answers = [f"pub {name} : goal.{name}\n{name} = {tried}\n" for name in names]
    return "\n".join([*uses, *rest, "", *[note] * bool(note), *answers])


def bring(uses, place, name):
    """Brings a name of a place into scope, in a list of lines that bring names, if none brings it."""
    at = next((at for at, line in enumerate(uses) if line.startswith(f"use {place}.{{")), None)
    if any(re.search(rf"[{{ ]{name}[,}} ]", line) for line in uses):
        return
    if at is None:
        uses.insert(sum(line < f"use {place}." for line in uses), f"use {place}.{{{name}}}")
    else:
        uses[at] = f"{uses[at][:-1]}, {name}}}"


def check(module, crate, texts, kept, only=(), assumed=(), goals=None, twins=(), tried=TRIED):
    """Checks a copy of the crate with these texts in place of its own, over the work in the folder `kept`, where some functions are assumed to
    be proved, and goals of others are answered by `tried`; twins have the answers of the functions before them. Returns
    what was said, and the processor time in seconds."""
    with tempfile.TemporaryDirectory(prefix="edits-") as room:
        for part in ("src", "specs", "proofs"):
            if os.path.isdir(f"{crate.folder}/{part}"):
                shutil.copytree(f"{crate.folder}/{part}", f"{room}/{part}")
        for path, text in texts.items():
            with open(f"{room}/{path}", "w", encoding="utf-8") as file:
                file.write(text)
        assume(room, assumed)
        for name, other in twins:
            give_to_twin(pathlib.Path(crate.folder), pathlib.Path(room), name, other)
        answer(room, goals or {}, tried)
        flags = ["--jobs", "1", *(word for name in only for word in ("--only", name))]
        words = [module.rtlib.RATTLE, "check", *crate.words(flags, keeps=False), "--incremental", kept]
        with tempfile.TemporaryFile("w+", errors="replace") as said:
            ran = subprocess.Popen([*module.rtlib.guarded(), *words], cwd=room, stdin=subprocess.DEVNULL, stdout=said, stderr=said)
            _, status, used = os.wait4(ran.pid, 0)
            ran.returncode = os.waitstatus_to_exitcode(status)
            said.seek(0)
            return Said(said.read(), ran.returncode, assumed), used.ru_utime + used.ru_stime
