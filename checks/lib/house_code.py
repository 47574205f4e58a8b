"""What checks/house counts in the crates' src/: of each function its clauses, its parameters, and the form of its body."""
import dataclasses
import re

import functions

CLAUSE = re.compile(r" *(requires|ensures|ghost)\b")
# What begins a loop, and what opens a block of control flow, where a statement or a value begins.
BEGIN = r"(?:^(?:\} )?(?:'\w+: )?|[=({] |\(|=> |return )"
LOOP = re.compile(BEGIN + r"(?:for .+ in\b|while\b|loop\b)")
BLOCK = re.compile(BEGIN + r"(?:if|else|match|for .+ in|while|loop)\b|\belse \{$")


@dataclasses.dataclass(frozen=True)
class Code:
    """A function of a crate: its place, whether callers outside see it, its parameters, clauses and body."""

    place: str
    is_public: bool
    parameters: list
    clauses: list
    body: list

    def is_unsaid(self):
        """Whether it may change what it is given, and no clause of its own says how."""
        is_said = any(line.lstrip().startswith("ensures") for line in self.clauses)
        return self.is_public and not is_said and any(re.search(r"&('\w+ )?mut\b", it) for it in self.parameters)

    def loops(self):
        """How many loops it has."""
        return sum(1 for line in code_lines(self.body) if LOOP.search(line.strip()))

    def depth(self):
        """How deep blocks of control flow are inside others."""
        open_at, deepest = [], 0
        for line in code_lines(self.body):
            text, indent = line.strip(), len(line) - len(line.lstrip())
            while open_at and indent <= open_at[-1] and not text.startswith(("{", ")", "]")):
                open_at.pop()
            if BLOCK.search(text):
                open_at.append(indent)
                deepest = max(deepest, len(open_at))
        return deepest


def code_lines(lines):
    """The lines that are neither empty nor a comment."""
    return [line for line in lines if line.strip() and not line.lstrip().startswith("//")]


def parameters_of(text):
    """The parameters of a function, in its text from its head on: what the brackets behind its name hold."""
    found, depth, before = [""], 0, ""
    for letter in text[functions.HEAD.match(text).end() :]:
        depth += letter in "(<[{"
        if letter == ")" and depth == 1:
            break
        if letter == "(" and depth == 1:
            found = [""]
        elif letter == "," and depth == 1:
            found.append("")
        else:
            found[-1] += letter
        depth -= letter in ")>]}" and before + letter != "->"
        before = letter
    return [it.strip() for it in found if it.strip()]


def code_of(function, lines):
    """What is counted of a function. A law, which has no body, and a trait's declaration end with their clauses."""
    has_body = function.body < function.last and lines[function.body].endswith("{")
    end = function.body if has_body else function.last + lines[function.last].endswith(";")
    begin = next((at for at in range(function.first + 1, end) if CLAUSE.match(lines[at])), end)
    return Code(
        f"{function.file}:{function.first + 1}: {function.name}",
        lines[function.first].lstrip().startswith("pub ") or function.owner.startswith("pub trait"),
        parameters_of("\n".join(lines[function.first : begin + 1])),
        code_lines(lines[begin:end]),
        lines[function.body + 1 : function.last] if has_body else [],
    )


def every(sources):
    """What is counted of each function of sources, which are paths with their texts."""
    for path, text in sources:
        lines = text.split("\n")
        yield from (code_of(function, lines) for function in functions.functions_of(path, text))
