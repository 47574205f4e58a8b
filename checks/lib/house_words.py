"""What checks/house counts in words: the files that speak of each kind of statement, long lines, and texts said twice."""
import glob
import os
import re

TOP = os.path.dirname(os.path.dirname(os.path.dirname(os.path.abspath(__file__))))
# Where a kind of statement may be named: in code, in definitions, and in what is about these.
CODE, DEFINITIONS = "crates/*/src/**/*.rt", "crates/*/specs/**/*.antt"
ABOUT_THEM = ("crates/*/proofs/**/*.antt", "conformance/**/*.py", "docs/**/*.md")
# What is no name: comments, and the samples of templates in pages, cases and tests.
ASIDE = re.compile(r"\{%.*?%\}|^ *(?:--|//).*$", re.M)
IMPORT = re.compile(r" *(?:ghost |pub )*use ")


def kind(words, parts, more=""):
    """Returns what finds a name of a kind of statement: of its case, tag or instruction, or of its closing tag."""
    opened = rf"(?:{words})_?(?:{parts})"
    closed = rf"(?:end_?|key_|jump_?|\ban?_)(?:{words})"
    return re.compile(rf"(?i:{opened}|{closed})(?![a-z]){more}")


# A block with branches, one with turns, and one with a name: `with` alone, which is a word of English too, is a case.
KINDS = (
    kind("if", "else|block|tag"),
    kind("for|loop", "loop|block|tag|start|next"),
    kind("with", "block|tag|start|end", r"|\(with \w|\bwith : "),
)
# What may have quotes and is no text: comments, and a quote as a character. A text of code, and the words of one.
NO_TEXT, TEXT, WORD = re.compile(r"//.*$|'\"'", re.M), re.compile(r'"((?:\\.|[^"\\])*)"'), re.compile(r"[A-Za-z]{2,}")
# Bounds that reach past the traits of files: of what may open the system's, and of what could write to a copy of its log.
PAST_FILES = re.compile(r"\b(?:\w+: |\+ )Files\b|rt::(?:\{[^}]*\b)?Files\b|Targets \+ Clone|Clone \+ Targets")
# The crates above these traits.
OF_TOOL, OF_FILES = "crates/upon_tool_", ("crates/upon_tool_io/", "crates/upon_tool_cli/")
# Crates whose texts are those of examples.
OF_EXAMPLES = ("crates/upon_examples/", "crates/upon_users/", "crates/upon_bench/")
# A copy of the language before `for .. else`, and a page that a script writes, which no statement changes by hand.
UNTOUCHED = ("crates/upon_before_spec/", "docs/proof/DEFINITIONS.md")


def text_of(path):
    """Returns the text of a file of the repository."""
    with open(os.path.join(TOP, path), encoding="utf-8") as file:
        return file.read()


def sources(*patterns):
    """Returns the files of some patterns below the top, each with its text, in order."""
    paths = sorted(path for pattern in patterns for path in glob.glob(pattern, root_dir=TOP, recursive=True))
    return [(path, text_of(path)) for path in paths]


def name_each_kind(files):
    """The files that name each kind of statement: a new one, which is a kind more, touches these."""
    for path, text in files:
        code = ASIDE.sub("", text)
        if not path.startswith(UNTOUCHED) and all(it.search(code) for it in KINDS):
            yield path


def long_lines(files, most):
    """The lines that have more columns than that: those that bring in no names, and those that do."""
    found, imports = [], []
    for path, text in files:
        for number, line in enumerate(text.split("\n"), 1):
            if len(line) > most:
                (imports if IMPORT.match(line) else found).append(f"{path}:{number}: {len(line)} columns")
    return found, imports


def said_twice(code):
    """The texts of two words or more that stand in more than one file of code: who changes one has to find the others."""
    places = {}
    for path, text in code:
        for said in set(TEXT.findall(NO_TEXT.sub("", text))):
            if len(WORD.findall(said)) >= 2 and not path.startswith(OF_EXAMPLES):
                places.setdefault(said, []).append(path)
    for said, paths in sorted(places.items()):
        if len(paths) > 1:
            yield f'"{said}": {", ".join(paths)}'


def past_files(code):
    """The lines of the tool's code above the traits of files that reach past these, by what they name in bounds."""
    for path, text in code:
        if path.startswith(OF_TOOL) and not path.startswith(OF_FILES) or path.startswith("crates/upon_tool/"):
            for number, line in enumerate(text.split("\n"), 1):
                if PAST_FILES.search(NO_TEXT.sub("", line)):
                    yield f"{path}:{number}"
