"""The functions of a file as `rt fmt` lays it out, and the names that the prover gives them."""
import dataclasses
import re

HEAD = re.compile(r'( *)(?:pub(?:\([^)]*\))? )?(?:const )?(?:unsafe )?(?:extern "C" )?fn (\w+)')
CLAUSES = ("requires", "ensures", "ghost", "where")


@dataclasses.dataclass(frozen=True)
class Function:
    """A function: the lines (from 0) of its head, of its body and of its end, whether it has one, the head of its impl, and its cycle of calls.
    A twin of it has the same name, and what is put after that."""

    file: str
    first: int
    body: int
    last: int
    has_body: bool
    name: str
    owner: str
    cycle: str
    suffix: str = ""

    def has(self, line):
        """Whether the line is of its body, or of its clauses if it is a law, whose body is empty."""
        return self.body <= line <= self.last

    def can_have_twin(self):
        """Whether a twin can stand beside it: it is in no cycle of calls, and no trait asks for it."""
        return self.has_body and not self.cycle and (not self.owner or self.owner.startswith("impl") and " for " not in self.owner)

    def twin(self, lines, suffix, at):
        """Returns the lines of a twin, of those of the file, and that twin if its lines begin at a line."""
        above = next((i for i in range(self.first - 1, -1, -1) if not lines[i].strip() or lines[i].rstrip().endswith(("{", "}"))), -1) + 1
        own = [*lines[above : self.first], re.sub(rf"\bfn {self.name}\b", f"fn {self.name}{suffix}", lines[self.first], count=1)]
        own += lines[self.first + 1 : self.last + 1]
        before, after = ([self.owner, *uses_inside(lines, self.first)], ["}"]) if self.owner else ([], [])
        moved = at + len(before) - above
        twin = dataclasses.replace(self, first=self.first + moved, body=self.body + moved, last=self.last + moved, suffix=suffix)
        return [*before, *own, *after], twin


def functions_of(file, text):
    """Returns the functions of a file's text, in their order."""
    lines, found, owner, owner_ends = text.split("\n"), [], "", -1
    for at, line in enumerate(lines):
        if line.startswith(("impl", "trait", "pub trait")) and at > owner_ends:
            owner, owner_ends = owner_of(lines, at)
        head = HEAD.match(line)
        if head:
            body, last = body_of(lines, at, head[1])
            found.append(Function(file, at, body, last, not lines[last].endswith(";"), head[2], owner if at <= owner_ends else "", cycle_of(lines, at)))
    return found


def owner_of(lines, at):
    """Returns the head of the impl or trait that begins at a line, in one line, and the line where it ends."""
    head = next(i for i in range(at, len(lines)) if lines[i].rstrip().endswith(("{", "}")))
    is_end = lambda i: lines[i] == "}" or i == at and lines[at].endswith("}")
    ends = next((i for i in range(at, len(lines)) if is_end(i)), at)
    return " ".join(line.strip() for line in lines[at : head + 1]), ends


def uses_inside(lines, at):
    """Returns the lines by which the impl around a line brings names in for its clauses."""
    head = next((i for i in range(at, -1, -1) if lines[i].startswith("impl")), at)
    return [line for line in lines[head:at] if line.startswith("    ghost use ")]


def body_of(lines, at, indent):
    """Returns the first and the last line of the body of the function whose head is at a line."""

    def opens(line):
        return line == indent + "{" or line.endswith(" {") and not line.lstrip().startswith(CLAUSES)

    def is_empty(line):
        return line == indent + "{}" or line.endswith(" {}") and not line.lstrip().startswith(CLAUSES)

    # (a member of a trait without a body ends at its semicolon)
    body = next((i for i in range(at, len(lines)) if opens(lines[i]) or is_empty(lines[i]) or lines[i].endswith(";")), at)
    if not opens(lines[body]):
        return (at, body) if is_empty(lines[body]) else (body, body)
    last = next((i for i in range(body, len(lines)) if lines[i] == indent + "}"), body)
    return (at, last) if last == body + 1 else (body, last)


def cycle_of(lines, at):
    """Returns the name of the cycle of calls that the attributes above a function's head give it, if they do."""
    above = "\n".join(lines[max(0, at - 6) : at]).rpartition("}")[2]
    found = re.search(r"cycle\((\w+)\)", above)
    return found[1] if found else ""


def without_bodies(text, functions):
    """Returns a file's text in which these functions have a body that never ends, in as many lines. A law has an empty body as it is."""
    lines = text.split("\n")
    for it in (it for it in functions if not lines[it.last].endswith("{}")):
        inside = range(it.body + 1, it.last)
        for line in inside:
            lines[line] = "loop {}" if line == inside[0] else ""
    return "\n".join(lines)


def names_of_impl(head):
    """Returns the names that the prover may give an impl, in small letters: `boolfunctionreturn` to `impl FunctionReturn for bool`."""
    found = re.match(r"(?:pub )?(?:impl|trait)\s*(<(?:[^<>]|<[^<>]*>)*>)?(.*?)(?: where .*)?[{} ]*\Z", head)
    parameters = set(re.findall(r"(?:\A<|, )(?:const )?(\w+)", found[1] or ""))
    trait, _, of = found[2].rpartition(" for ")
    text = re.sub(r"'\w+", "", f"{of} {trait}".replace("()", " Unit ").replace("&", " Ref "))
    forms = {text, re.sub(r"\b\w+::", "", text), re.sub(r"<.*?>", "", text), re.sub(r"<.*>", "", text)}
    forms |= {form.replace(" From", " From ") for form in forms}
    return {"".join(word for word in re.findall(r"\w+", form) if word not in parameters).lower() for form in forms}


def module_of(crate, file):
    """Returns the parts of the path of a file's module, the crate's name first."""
    inside = re.sub(r"\Asrc/|(\b/?(mod|lib|main))?\.rt\Z", "", file)
    return [crate, *filter(None, inside.split("/"))]


def name_of(function, crate, known):
    """Returns the name under which a check's lines tell of the function, of those that are known, or None if that is not sure. A twin's is that of
    the function and its suffix."""
    names = [name.split("::") for name in known]
    names = [name for name in names if name[-1] == function.name]
    module = module_of(crate, function.file)
    if function.owner:
        forms = names_of_impl(function.owner)
        names = [name for name in names if len(name) > 2 and re.sub(r"\W", "", name[-2]).lower() in forms]
        names = [name for name in names if name[:-2] == module] or names
    else:
        names = [name for name in names if name[:-1] == module]
    return "::".join(names[0]) + function.suffix if len(names) == 1 else None
