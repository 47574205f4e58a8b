"""Runs of upon-tool on hostile files and systems: for checks/hostile.

A run has the words of a call, the files that it begins with, and what the system refuses. It is made from its number and a seed.
"""
import collections
import json
import random
import resource

# What is at a path: a file with its bytes, a link with its target, a pipe with what is fed into it (none: it is read), a folder,
# or one more name of a file with that file's path.
Entry = collections.namedtuple("Entry", "kind content", defaults=[None])

PEOPLE = [{"id": n, "name": f"Ann & {n}", "owed": n * 7, "note": "x" * (40 * n)} for n in range(1, 9)]
ROWS = [{"name": f"tea {n}", "price": f"{n}.50"} for n in range(120)]
# The files that a run begins with; `out.txt` and those in `out` are old pages.
FILES = {
    "page.txt": '{% include "head.txt" %}{% for row in rows %}{{ row.name }}: {{ row.price }}\n{% endfor %}{% include "deep/foot.txt" %}',
    "letter.txt": "Dear {{ name }},\n{{ note }} you owe {{ owed }} to {{ shop }}.\n" + "-" * 3000 + "\n",
    "layout.html": "<title>{{ title }}</title>\n{{ content }}\n" + "." * 2000 + "</html>\n",
    "data.json": json.dumps({"shop": "Tea & Co", "title": "T", "people": PEOPLE}),
    "rows.csv": "name,price\n" + "".join(f"{row['name']},{row['price']}\n" for row in ROWS),
    "lines.jsonl": "".join(json.dumps(row) + "\n" for row in ROWS),
    "table.toml": 'title = "Table"\n[b]\nc = 1\n',
    "parts/head.txt": "# {{ title }}\n",
    "parts/deep/foot.txt": "-- {{ shop }}\n",
    "source/index.html.upon": '{% include "head.txt" %}' + "<p>{{ shop }}</p>\n" * 150,
    "source/deep/list.html.upon": "{% for one in people %}<li>{{ one.name }}</li>\n{% endfor %}" * 20,
    "source/css/main.css": "h1 { color: green }\n" * 500,
    "source/bytes.bin": "a\0" * 2000,
    "outside/secret.txt": "secret",
    "out.txt": "old " * 1000,
    "out/1.txt": "old 1",
    "out/3.txt": "old 3 " * 900,
    "out/index.html": "old index",
    "out/deep/list.html": "old list " * 700,
    "out/css/main.css": "old css",
    "out/kept.txt": "kept",
}
# The calls, and old files at the places that they write to.
CALLS = {
    "render": "render page.txt --data data.json --data rows=rows.csv --templates parts",
    "render --out": "render page.txt --data data.json --data rows=lines.jsonl --templates parts --out out.txt",
    "render --each": "render letter.txt --data data.json --each people --name {{id}}.txt --out out",
    "build": "build source --data data.json --data table.toml --templates parts --layout layout.html --out out",
    "check": "check page.txt letter.txt --templates parts",
    "names": "names page.txt --templates parts --json",
}
PAGES = {"render --each": ["out/1.txt", "out/3.txt"], "build": ["out/index.html", "out/css/main.css"]}
# Words that a call may have more.
MORE = {
    "render": ["--html", "--std", "--color=always"],
    "render --out": ["--std", "--max-output=3000", "--escape=json"],
    "render --each": ["--keep-going", "--html"],
    "build": ["--keep-going", "--html", "--std"],
}


class Run:
    """A run: its words and files, and what the system refuses."""

    def __init__(self, number, seed):
        self.random = random.Random(f"{seed} {number}")
        self.call = list(CALLS)[number % len(CALLS)]
        self.words = CALLS[self.call].split()
        self.world = {path: Entry("file", text.encode()) for path, text in FILES.items()}
        # What standard input gives, which of 0, 1 and 2 are closed, and where the output goes.
        self.input, self.closed, self.output = b"", [], "read"
        # Limits of the system, pages of 4096 bytes that are free on the disk, and variables of checks/refuse.c.
        self.limits, self.free_pages, self.variables = [], None, {}
        # Whether a growth of memory is refused; whether another user runs it, with which paths under which permissions.
        self.refuses_growth, self.is_other, self.modes = False, False, {}
        # Whether nothing may be written, as the words are wrong.
        self.is_refused = False

    def out(self):
        """The path that is written to, if there is one."""
        return self.words[self.words.index("--out") + 1] if "--out" in self.words else None

    def inputs(self):
        """The paths of files that are read by their names in the words."""
        named = [word.split("=")[-1] for word in self.words[1:]]
        return [path for path in named if path in self.world and path != self.out()]

    def below(self):
        """The paths of files in the folder that is read."""
        return [path for path in self.world if path.startswith("source/" if self.call == "build" else "parts/")]

    def pages(self):
        """Old files at places that are written to."""
        return PAGES.get(self.call, ["out.txt"])

    def any_input(self):
        """The path of a file that is read."""
        return self.random.choice(self.inputs() + self.below())

    def remove(self, path):
        """Takes a file, or a folder with what is in it, away."""
        self.world = {name: entry for name, entry in self.world.items() if name != path and not name.startswith(path + "/")}

    def put(self, path, *entry):
        """Puts something in the place of what is at a path."""
        self.remove(path)
        self.world[path] = Entry(*entry)


def cut(run):
    """A file that is read ends early."""
    path = run.any_input()
    content = run.world[path].content
    run.put(path, "file", content[: run.random.randrange(len(content) + 1)])


def broken(run):
    """Some bytes of a file that is read are others."""
    path = run.any_input()
    content = bytearray(run.world[path].content)
    for _ in range(run.random.randrange(1, 5)):
        at = run.random.randrange(len(content))
        content[at:at + 1] = run.random.choice([b"\xff", b"\0", b"{", b"}", b"%", b'"', b",", b"\n", b"{{", b"{% endif %}"])
    run.put(path, "file", bytes(content))


def gone(run):
    """A file or a folder that is read is not there."""
    run.remove(run.random.choice(run.inputs() + run.below() + ["parts", "source", "source/deep"]))


def piped(run):
    """A file that is read is a pipe, whose writer may end early; or the output is one, whose reader may."""
    if run.out() == "out.txt" and run.random.random() < 0.5:
        run.put("out.txt", "pipe")
    elif run.random.random() < 0.3:
        run.put(run.random.choice(run.below()), "pipe")
    else:
        path = run.random.choice(run.inputs() or ["layout.html"])
        content = run.world[path].content
        run.put(path, "pipe", content[: run.random.choice([0, len(content) // 2, len(content)])])


def folder(run):
    """A folder is in the place of a file that is read or written."""
    path = run.random.choice(run.inputs() + run.pages())
    run.put(path, "folder")
    run.world[path + "/inside.txt"] = Entry("file", b"inside")


def no_folder(run):
    """A file is in the place of a folder."""
    run.put(run.random.choice(["parts", "source", "out", "out/deep", "out/css"]), "file", b"no folder")


def linked(run):
    """A link leads out, to nothing, to itself, around, or to a file that is elsewhere."""
    places = run.inputs() + run.below() + run.pages() * 3 + ["out", "out/css", "parts/more.txt", "source/more"]
    path = run.random.choice(places)
    up = "../" * path.count("/")
    run.world["moved.txt"] = run.world.get(path, Entry("file", b"moved"))
    targets = [up + "outside/secret.txt", up + "moved.txt", "nowhere", path.rpartition("/")[2], ".", up + "outside", "/dev/null"]
    run.put(path, "link", run.random.choice(targets))
    if run.random.random() < 0.4:
        run.words.append("--follow")


def two_names(run):
    """A file that is written to has one more name."""
    run.world["twin.txt"] = Entry("twin", run.random.choice(run.pages()))


def over_input(run):
    """The output is a file or a folder that is read, or one in it."""
    places = {"out.txt": ["page.txt", "data.json", "parts/head.txt"], "out": [".", "parts", "source/deep"]}
    if run.out() in places:
        run.words[run.words.index("--out") + 1] = run.random.choice(places[run.out()])
    run.is_refused = run.call == "build" and run.out() == "source/deep"


def bad_names(run):
    """Names of pages lead out, are empty, are those of folders, or are there twice."""
    name = run.random.choice(["", "/", "../{{id}}", "a/../../{{id}}", "/{{id}}", "same", "{{id}}/", "{{none}}", "{{", "deep", "kept.txt/{{id}}"])
    if run.call == "render --each":
        run.words[run.words.index("--name") + 1] = name
    if run.call == "build":
        run.put("source/index.html", "file", b"twice")


def full_disk(run):
    """The disk has room for few pages of memory."""
    run.free_pages = run.random.randrange(5)


def small_files(run):
    """No file may grow beyond some bytes."""
    run.limits.append((resource.RLIMIT_FSIZE, run.random.choice([0, 1, 5, 1000, 2500, 4096, 8000])))


def few_files(run):
    """Few files may be open at once."""
    run.limits.append((resource.RLIMIT_NOFILE, run.random.randrange(4, 6)))


def closed(run):
    """Standard input, output or error is closed."""
    run.closed = run.random.choice([[0], [1], [2], [0, 1], [1, 2], [0, 2], [0, 1, 2]])


def output_fails(run):
    """Standard output is full, or its reader ends early."""
    run.output = run.random.choice(["full", "gone", "short"])


def not_permitted(run):
    """Some paths may not be read or written, or belong to another user."""
    run.is_other = True
    paths = run.inputs() + run.below() + run.pages() * 2 + ["out", "out", "out/css", "parts", "parts/deep", "source/deep", "."]
    for path in run.random.sample(paths, 3):
        run.modes[path] = run.random.choice([0o000, 0o500, 0o400, 0o200, "root"])


def refused_growth(run):
    """A growth of memory is refused, or all from one on."""
    run.refuses_growth = True


def not_kept(run):
    """A file can't be written to the disk, or can't have its permissions."""
    run.variables[run.random.choice(["REFUSE_SYNC", "REFUSE_MODE"])] = "1"


OF_FILES = [cut, broken, gone, piped, folder, no_folder, linked, two_names, over_input, bad_names]
OF_THE_SYSTEM = [full_disk, small_files, few_files, closed, output_fails, not_permitted, refused_growth, not_kept]
# What is hostile to the first runs of each call: one thing, twice over. To the others one of the files and one of the system are.
ONE = [[one] for one in OF_FILES + OF_THE_SYSTEM] * 2


def planned(number, seed):
    """Returns the run of a number, with the names of what is hostile to it."""
    run = Run(number, seed)
    both = [run.random.choice(OF_FILES), run.random.choice(OF_THE_SYSTEM)]
    hostile = dict(enumerate(ONE)).get(number // len(CALLS), both)
    run.words += [word for word in MORE.get(run.call, []) if run.random.random() < 0.4]
    for one in hostile:
        one(run)
    read = [path for path in run.inputs() if path in run.words and run.world[path].kind == "file" and path not in ("source", "parts")]
    if read and run.random.random() < 0.2:
        path = run.random.choice(read)
        run.input = run.world[path].content
        run.words[run.words.index(path)] = "-"
    return run, [one.__name__ for one in hostile]
