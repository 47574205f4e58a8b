"""The programs' commands and arguments, as their sources have them: rows of `upon-tool`, and the help of `upon-render`."""
import re
import sys
from typing import NamedTuple

from house_words import text_of

ROWS = "crates/upon_tool_io/src/command_line.rt"
HELP = "crates/upon_cli/src/main.rt"
CONSTANT = re.compile(r"^(?:pub\(crate\) )?const (\w+): [^=]*=\s", re.M)
TOKEN = re.compile(r'(?:\s|//[^\n]*\n)*("(?:[^"\\]|\\.)*"|\.\.|::|\w+|[\[\](){},:;&])')
ESCAPED = {'\\"': '"', "\\\\": "\\"}
KINDS = {"Value::File": "file", "Value::Folder": "folder", "Value::Text": "text"}


class Argument(NamedTuple):
    """An option, or a word that has no name: then `name` is empty."""

    name: str
    letter: str = ""
    # What the help calls its value, what that is (a file, a folder, a text or a number), and the words that it is one of.
    value: str = ""
    kind: str = ""
    words: tuple = ()
    is_many: bool = False
    help: str = ""
    is_required: bool = False
    # It is required where none of these is there; those that it wants; those that may not be there with it.
    unless: tuple = ()
    needs: tuple = ()
    excludes: tuple = ()

    def option(self):
        """How it begins: `--name`, or the value itself."""
        return f"--{self.name}" if self.name else self.value


class Command(NamedTuple):
    """A command; or a program, whose commands are below it."""

    name: str
    about: str
    arguments: list
    commands: list = []

    def options(self):
        """The arguments that have a name."""
        return [it for it in self.arguments if it.name]

    def words(self):
        """The arguments that have none."""
        return [it for it in self.arguments if not it.name]


# What `clap` adds to each command, and to the program.
TO_COMMAND = [Argument("help", "h", help="Print help")]
TO_PROGRAM = [*TO_COMMAND, Argument("version", "V", help="Print version")]


class Reader:
    """Reads constants of Rattle: texts, lists, records, and cases with what they hold. It refuses all else."""

    def __init__(self, place):
        self.text, self.place, self.at = text_of(place), place, 0
        self.known = {"true": True, "false": False}

    def refuse(self, why):
        """Ends the run."""
        sys.exit(f"{self.place}:{self.text.count(chr(10), 0, self.at) + 1}: {why}")

    def next(self):
        """The next token, which stays."""
        found = TOKEN.match(self.text, self.at)
        return found[1] if found else ""

    def take(self, wanted=None):
        """Takes the next token, which is the wanted one if there is one."""
        found = TOKEN.match(self.text, self.at)
        if not found or wanted not in (None, found[1]):
            self.refuse(f"here is not {wanted or 'a part of a constant'}")
        self.at = found.end()
        return found[1]

    def constants(self):
        """Reads all constants, and returns them by their names."""
        for found in CONSTANT.finditer(self.text):
            self.at = found.end()
            self.known[found[1]] = self.expression()
            self.take(";")
        return self.known

    def expression(self):
        """Reads a value."""
        token = self.take()
        if token == "&":
            return self.expression()
        if token == "[":
            return self.several("]", self.expression)
        if token[0] == '"':
            return re.sub(r"\\.", lambda it: ESCAPED.get(it[0]) or self.refuse(f"{it[0]} is not known"), token[1:-1])
        return self.of_path(token)

    def of_path(self, path):
        """Reads what begins with a path: a record, a case, or a constant that stands above."""
        while self.next() == "::":
            path += self.take() + self.take()
        if self.next() == "{":
            self.take()
            fields = dict(self.several("}", self.field))
            return {**fields.pop("..", {}), **fields}
        if self.next() == "(":
            self.take()
            return (path, *self.several(")", self.expression))
        if "::" in path:
            return (path,)
        return self.known[path] if path in self.known else self.refuse(f"{path} is not known")

    def field(self):
        """Reads a field with its name; `..` has those of another record."""
        name = self.take()
        if name != "..":
            self.take(":")
        return name, self.expression()

    def several(self, end, part):
        """Reads parts up to the end, with a comma between them."""
        found = []
        while self.next() != end:
            found.append(part())
            if self.next() != end:
                self.take(",")
        self.take(end)
        return found


def taken(takes):
    """Returns what a row takes, as fields of its argument."""
    form, *given = takes
    if form in ("Takes::One", "Takes::Each", "Takes::Itself", "Takes::Words"):
        kind, value = given[0]
        return {"value": value, "kind": KINDS[kind], "is_many": form in ("Takes::Each", "Takes::Words")}
    if form == "Takes::Word":
        return {"value": given[0], "kind": "word", "words": tuple(given[1])}
    if form == "Takes::Number":
        return {"value": given[0], "kind": "number"}
    return {} if form == "Takes::Nothing" else sys.exit(f"{ROWS}: {form} is not known")


def argument(row, known):
    """Returns the argument of a row. The name of a word is what the help calls it, in capitals."""
    fields, name = taken(row["takes"]), row["name"]
    if name.isupper() != (row["takes"][0] in ("Takes::Itself", "Takes::Words")):
        sys.exit(f"{ROWS}: {name}: the name of a word, and of no option, is in capitals")
    others = {of: tuple(spelled(it, known) for it in row[of]) for of in ("unless", "needs", "excludes")}
    return Argument("" if name.isupper() else name, help=row["help"], is_required=row["is_required"], **others, **fields)


def spelled(name, known):
    """Returns how a row's mention of another one is said: an option, a word, or one of the group of contexts."""
    if name == known["CONTEXTS"]:
        return "one of " + listed([spelled(it, known) for it in known["OF_CONTEXTS"]], "or")
    return name if name.isupper() else f"--{name}"


def listed(words, last="and"):
    """Returns words as a list of them in a sentence."""
    return f" {last} ".join(filter(None, [", ".join(words[:-1]), words[-1]]))


def of_tool():
    """Returns `upon-tool`, by the rows of its table."""
    known = Reader(ROWS).constants()
    commands = [
        Command(it["name"], it["about"], [argument(row, known) for row in it["rows"]] + TO_COMMAND) for it in known["COMMANDS"]
    ]
    return Command(known["PROGRAM"], known["ABOUT"], TO_PROGRAM, commands)


def of_render():
    """Returns `upon-render`, by its help."""
    about, _, usage, *lines = re.search(r'^const HELP: &str = "\\\n(.*?)";', text_of(HELP), re.M | re.S)[1].split("\n")
    found = []
    for letter, name, value, words in re.findall(r"^  (?:-(\w), --([\w-]+)|(\S+))  +(\S.*)$", "\n".join(lines), re.M):
        kind = "file" if value == "FILE" else "text" if value else ""
        is_many = f"[{value}].." in usage
        found.append(Argument(name, letter, value, kind, is_many=is_many, help=words, is_required=bool(value) and not is_many))
    return Command(usage.split()[1], about, found)


def programs():
    """Returns the programs."""
    return [of_tool(), of_render()]
