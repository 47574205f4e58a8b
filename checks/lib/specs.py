"""The definitions in the crates' specs/, module by module, and which of them the theorem's clauses reach."""
import os
import re

from house_words import text_of

TOP = os.path.dirname(os.path.dirname(os.path.dirname(os.path.abspath(__file__))))
SOURCE = os.path.join(TOP, "crates", "upon_engine", "src", "theorem.rt")
WORD = re.compile(r"[^\s(){}\[\];,.λ→×∥₁]+")
IMPORT = re.compile(r"^use Rattle\.(upon_\w+)\.specs\.([\w.]+)\.\{(.*)\}$")
# An import of a word of another library.
OUTSIDE = re.compile(r"^(?:pub )?use Rattle\.(?!upon_)[\w.+]+\.\{(.*)\}$")


class Block(list):
    """The lines of a definition, and how many lines of words stand above it."""

    words = 0


class Module:
    """The definitions of a module by their names, each with its text, and what the module brings in: from crates of this
    repository under which names, and the words from outside."""

    def __init__(self, crate, name, text):
        self.crate = crate
        self.name = name
        self.blocks = []
        self.names = {}
        self.imports = {}
        self.outside = set()
        self.read(text)

    def read(self, text):
        """Reads imports and definitions. A definition goes from its signature to the next one, without its comments."""
        block, words = None, 0
        for line in text.split("\n"):
            found, outside = IMPORT.match(line), OUTSIDE.match(line)
            if outside:
                self.outside.update(item.partition(" as ")[0].strip() for item in outside.group(1).split(","))
            if found:
                self.bring(found)
            elif line.strip() == "" or re.match(r" *(--|use |module |mutual)", line):
                block, words = None, words + 1 if line.lstrip().startswith("--") else 0
            else:
                before, block = block, self.line(line, block)
                if block is not before:
                    block.words, words = words, 0

    def bring(self, found):
        """Notes the names of an import, also those under another name."""
        for item in found.group(3).split(","):
            old, _, new = item.strip().partition(" as ")
            self.imports[new or old] = (found.group(1), found.group(2), old)

    def line(self, line, block):
        """Adds a line to the definition that it belongs to."""
        head = re.match(r"^( *)(abbrev pub|unfoldable pub|pub data|pub record|pub|data|record) ([^\s:{]+)", line)
        if head and not (block and block[0].startswith("pub record") and head.group(1)):
            if not block or head.group(2) != "pub" or not re.match(r" *(pub )?(data|record)", block[0]):
                block = Block()
                self.blocks.append(block)
            self.names[head.group(3)] = block
        if block is None:
            block = Block()
            self.blocks.append(block)
        if re.match(r" +[^\s:]+ : ", line) and re.match(r" *pub data", (block or [""])[0]):
            self.names[line.split()[0]] = block
        signature = re.match(r"^([^\s:(){}]+) : ", line)
        if signature:
            self.names[signature.group(1)] = block
        block.append(line)
        return block


def names_in(specs, prefix=""):
    """The modules that a list of modules names, in its order, each with those below it."""
    listed = os.path.join(specs, (prefix[:-1].replace(".", "/") if prefix else "Lib") + ".antt")
    for line in open(listed, encoding="utf8"):
        found = re.match(r"(?:pub )?mod (\w+)$", line.strip())
        if found and os.path.isdir(os.path.join(specs, prefix.replace(".", "/"), found.group(1))):
            yield from names_in(specs, prefix + found.group(1) + ".")
        elif found:
            yield prefix + found.group(1)


def all_modules():
    """Every module of specs/, by its crate and name, in reading order: the lowest crate first."""
    found = {}
    for crate in crate_order():
        specs = os.path.join(TOP, "crates", crate, "specs")
        for name in names_in(specs) if os.path.isdir(specs) else []:
            path = os.path.join(specs, name.replace(".", "/") + ".antt")
            found[crate, name] = Module(crate, name, open(path, encoding="utf8").read())
    return found


def words_of(clause, text):
    """The words of the clauses of a name in the theorem's source."""
    found = re.findall(rf"ensures {clause} \{{(.*?)\}}\n(?= *(?:ensures|//|\{{))", text, re.S)
    return set(WORD.findall("\n".join(found)))


def clause_roots(clause=None):
    """The definitions that the imports of the theorem's source name, or those of them that clauses of a name have."""
    text = open(SOURCE, encoding="utf8").read()
    words = words_of(clause, text) if clause else None
    for line in text.split("\n"):
        found = IMPORT.match(line.strip().removeprefix("ghost ").rstrip(";"))
        if found:
            for item in found.group(3).split(","):
                name, _, here = item.strip().partition(" as ")
                if words is None or (here or name) in words:
                    yield found.group(1), found.group(2), name


def reached(modules, clause=None):
    """The definitions that the clauses reach, or those of a name, and all words in them."""
    waiting, seen, words = list(clause_roots(clause)), {}, set()
    while waiting:
        crate, name, word = waiting.pop()
        module = modules.get((crate, name))
        block = module.names.get(word) if module else None
        if block is None or id(block) in seen:
            continue
        seen[id(block)] = (module, block)
        for token in WORD.findall("\n".join(block)):
            words.add(token)
            if token in module.imports:
                waiting.append(module.imports[token])
            elif token in module.names:
                waiting.append((crate, name, token))
    return seen.values(), words


def rested_on():
    """Each crate, from the lowest, with the crates of this repository that it rests on, by crates.txt."""
    lines = [line for line in text_of("crates.txt").splitlines() if line.strip() and not line.startswith("#")]
    crates = {name.split()[0]: words.split() for name, _, words in (line.partition(":") for line in lines)}
    return {crate: [it for it in words if it in crates] for crate, words in crates.items()}


def crate_order():
    """The crates from the lowest."""
    return list(rested_on())
