"""What checks/house counts in the crates' specs/: what the theorem reaches, names defined twice, and use of proofs."""
import re

import specs

# A definition, or a type with its cases, whose name other modules bring in.
DEFINED = re.compile(r"( *)(?:abbrev |unfoldable )?pub (data |record )?([^\s:(){}]+)")
PROOFS = re.compile(r"(?:pub )?use Rattle\.upon_\w+\.proofs\b")
# A copy of the language before `for .. else`, on purpose.
COPY = "upon_before_spec"


def reached(modules, clause=None):
    """The modules that the theorem's clauses reach, each with its lines of definitions, and these with the words above."""
    counts = {}
    for module, block in specs.reached(modules, clause)[0]:
        bare, whole = counts.get(f"{module.crate}: {module.name}", (0, 0))
        counts[f"{module.crate}: {module.name}"] = (bare + len(block), whole + len(block) + block.words)
    return counts


def names(text):
    """The names that a module defines, each with its line. What is indented below a type is its field or its case."""
    inside = None
    for number, line in enumerate(text.split("\n"), 1):
        indent = len(line) - len(line.lstrip())
        if not line.strip() or inside is not None and indent > inside:
            continue
        found = DEFINED.match(line)
        inside = indent if found and found[2] else None
        if found and found[3] not in ("mod", "use"):
            yield number, found[3]


def defined_twice(sources):
    """The names that two or more files define, each with its places."""
    places = {}
    for path, text in sources:
        for number, name in names(text) if COPY not in path else []:
            places.setdefault(name, {}).setdefault(path, f"{path}:{number}")
    return [f"{name}: {', '.join(at.values())}" for name, at in sorted(places.items()) if len(at) > 1]


def uses_of_proofs(sources):
    """The lines that bring in something of a proof of a crate here."""
    for path, text in sources:
        for number, line in enumerate(text.split("\n"), 1):
            if PROOFS.match(line):
                yield f"{path}:{number}: {line}"
