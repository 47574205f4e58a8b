"""The words of definitions: where each is on the site, and texts in which each is linked to its definition."""
import html
import re
from urllib.parse import quote

import specs
from site_pages import text_of

# A text in quotes, a word of the logic's language, or a sign of it.
TOKEN = re.compile(r'"[^"]*"|[^\s(){}\[\];,.λ→×∥₁]+|[λ→×∥]|\[\]')
ITEM = re.compile(r"^- `([^`]+)`: (.*?)(?=^- `|^#|\Z)", re.M | re.S)
MARK = "<!-- Below, written by checks/write-definitions"
# The crate of which a page about the proof speaks if several have a definition of a name, and the older language's.
ENGINE, OLDER = "upon_engine", "upon_before_spec"
# The definitions of which the names are that the theorem's clauses bind.
BOUND = {"engine": "Texts", "held": "Stored", "tree": "Statements", "entry": "Stored"}
FIELDS = {"engine": "Texts", "held": "Stored"}


def definition_page(crate):
    """The key of the page of a crate's definitions."""
    return "definitions_" + crate


def href(key, anchor):
    """A link to an anchor of a page."""
    return f"{key}.html#{quote(anchor, safe='.')}"


def link(target, text, told=""):
    """A word that is linked to its definition, with what that says, if this is given."""
    title = f' title="{html.escape(told)}"' if told else ""
    return f'<a class="word" href="{html.escape(target)}"{title}>{html.escape(text)}</a>'


def crates_of(text):
    """docs/proof/DEFINITIONS.md's crates, each with its modules: name, what it is about, and its names with their words."""
    found = []
    for part in re.split(r"^## ", text[text.index(MARK):], flags=re.M)[1:]:
        modules = []
        for piece in re.split(r"^### ", part, flags=re.M)[1:]:
            name, _, body = piece.partition("\n")
            about = body.partition("\n- `")[0].strip() if "\n- `" in body else body.strip()
            entries = [(word, " ".join(words.split())) for word, words in ITEM.findall(body)]
            modules.append((name.strip("`").replace("/", "."), " ".join(about.split()), entries))
        found.append((part.partition("\n")[0].strip("`"), modules))
    return found


class Words:
    """The definitions of the repository and of the logic, by their names."""

    def __init__(self):
        self.modules = specs.all_modules()
        self.crates = crates_of(text_of("docs/proof/DEFINITIONS.md"))
        self.described = {(crate, module): {word for word, _ in entries} for crate, modules in self.crates
                          for module, _, entries in modules}
        logic = text_of("docs/proof/LOGIC.md")
        self.logic = dict(ITEM.findall(logic))
        self.of_clauses = {word for word, _ in ITEM.findall(logic.partition("## A clause")[2].partition("\n## ")[0])}
        self.blocks = {id(block): block for _, block in specs.reached(self.modules)[0]}
        self.roots = {word: (crate, module) for crate, module, word in specs.clause_roots()}
        self.unique = {**self.unique_names(lambda crate: crate == ENGINE), **self.unique_names(lambda crate: crate != OLDER)}
        self.told = self.what_is_told()

    def unique_names(self, is_asked):
        """Each name that is described once in the crates that are asked, with its crate and module."""
        found = {}
        for place, names in self.described.items():
            for name in names if is_asked(place[0]) else ():
                found.setdefault(name, []).append(place)
        return {name: places[0] for name, places in found.items() if len(places) == 1}

    def at(self, crate, module, word):
        """The link to a word of a module: to its own entry, or to that of the definition that it stands in."""
        names = self.described.get((crate, module), ())
        if word not in names:
            block = self.modules[crate, module].names.get(word) if (crate, module) in self.modules else None
            word = next((it for it in names if block is not None and self.modules[crate, module].names.get(it) is block), None)
        return href(definition_page(crate), f"{module}.{word}") if word else None

    def in_logic(self, word):
        """The link to a word of the logic."""
        return href("logic", word) if word in self.logic else None

    def in_module(self, crate, module, word):
        """The link to a word as a module of definitions means it."""
        here = self.modules.get((crate, module))
        if here and word in here.imports:
            return self.at(*here.imports[word])
        if here and word in here.names or word in self.described.get((crate, module), ()):
            return self.at(crate, module, word)
        return None if word in self.of_clauses else self.in_logic(word)

    def in_page(self, word):
        """The link to a word of a page: a definition whose name is the only one."""
        place = self.roots.get(word) if self.roots.get(word) in self.described else self.unique.get(word)
        return self.at(*place, word) if place else None

    def in_clause(self, word, before):
        """The link to a word of the theorem's clauses, by the word before it if that has it as a field."""
        record = FIELDS.get(before)
        if record and word in self.fields(record):
            word = record
        place = self.roots.get(BOUND.get(word, word)) or self.unique.get(BOUND.get(word, word))
        return self.in_logic(word) or (self.at(*place, BOUND.get(word, word)) if place in self.described else None)

    def fields(self, record):
        """The fields of a record of the module that the theorem takes its words from."""
        block = self.modules[self.unique[record]].names[record]
        return re.findall(r"^  pub (\w+) :", "\n".join(block), re.M)

    def what_is_told(self):
        """What each definition says, by the link to it."""
        found = {self.at(crate, module, word): words for crate, modules in self.crates for module, _, entries in modules
                 for word, words in entries}
        found.update({self.in_logic(word): " ".join(words.split()) for word, words in self.logic.items()})
        return {target: words.replace("`", "") for target, words in found.items()}

    def linked(self, text, of, told):
        """A text of the logic's language as HTML, by the link of each word, and by what a link leads to."""
        out, end = [], 0
        for found in TOKEN.finditer(text):
            target = of(found.group())
            out.append(html.escape(text[end:found.start()], quote=False))
            out.append(link(target, found.group(), told.get(target)) if target else html.escape(found.group(), quote=False))
            end = found.end()
        return "".join(out) + html.escape(text[end:], quote=False)

    def clause(self, text, is_whole):
        """Clauses as HTML, line by line. Where `is_whole`, a word without a definition ends the run."""
        return "\n".join(self.clause_line(line, is_whole) for line in text.split("\n"))

    def clause_line(self, line, is_whole):
        """A line of clauses as HTML; a comment stays as it is."""
        if line.lstrip().startswith("//"):
            return html.escape(line, quote=False)
        before = ""

        def of(word):
            """The link of a word, by the word before it."""
            nonlocal before
            target = self.in_clause(word, before)
            before = word
            if target is None and is_whole and not re.fullmatch(r"[:=₁]|T|x", word):
                raise SystemExit(f"site: the theorem's word {word} has no definition in docs/proof/DEFINITIONS.md or docs/proof/LOGIC.md")
            return target

        return self.linked(line, of, self.told)

    def text_in_logic(self, crate, module, word):
        """The definition's text in the logic as HTML, if the theorem reaches it and this is its first name."""
        here = self.modules.get((crate, module))
        block = here.names.get(word) if here else None
        if block is None or id(block) not in self.blocks:
            return ""
        first = next(it for it in here.names if here.names[it] is block and it in self.described[crate, module])
        if first != word:
            return ""
        return self.linked("\n".join(block), lambda it: None if it == word else self.in_module(crate, module, it), {})
