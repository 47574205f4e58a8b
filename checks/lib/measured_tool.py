"""What large work takes of upon-tool, beside Jinja2: for `checks/measure tool`.

The works are made at n, 2n and 4n: a folder of pages that is built with a layout, a page for each item of a list, and a page of
JSON and one of CSV. Both programs take the same words and templates (`in_jinja2.py`), and have to write the same bytes.
"""
import hashlib
import json
import os
import shutil
import subprocess
import sys
import tempfile
import time

MADE_BY = [sys.executable, os.path.join(os.path.dirname(os.path.abspath(__file__)), "in_jinja2.py")]
MIB = 1 << 20
LIST = "{% for row in items %}{{ row.name }}: {{ row.price }}\n{% endfor %}"


def write(path, parts):
    """Writes a file part by part: a child's peak of memory is at least what this process holds."""
    os.makedirs(os.path.dirname(path) or ".", exist_ok=True)
    with open(path, "w", encoding="utf-8") as file:
        file.writelines(parts)


def json_rows(count):
    """JSON of so many rows of 400 bytes."""
    yield "["
    for n in range(count):
        row = {"id": n, "name": f"name of row {n}", "price": f"{n}.50", "active": True, "tags": ["one", "two"]}
        text = json.dumps({**row, "note": ""})
        yield (",\n" if n else "") + text[:-2] + "x" * (398 - len(text)) + '"}'
    yield "]\n"


def build(count):
    """Builds so many pages, of templates of 650 bytes, with ten rows each."""
    for n in range(count):
        write(f"source/{n % 100}/{n}.html.upon", [f"<h1>{n}</h1>\n", "<p>{{ title }}</p>\n" * 30, LIST])
    write("layout.html", ["<title>{{ title }}</title>\n<body>\n{{ content }}</body>\n"])
    write("data.json", [json.dumps({"title": "Prices", "items": [{"name": f"tea {n}", "price": f"{n}.50"} for n in range(10)]})])
    return "build source --layout layout.html --data data.json --out out".split()


def each(count):
    """Renders a letter of 200 bytes for each of so many items."""
    write("letter.txt", ["Dear {{ name }},\nyou owe {{ price }} for {{ id }}.\n" + "-" * 150 + "\n"])
    write("people.json", json_rows(count))
    return ["render", "letter.txt", "--data", "people.json", "--each", "items", "--name", "{{ id }}.txt", "--out", "out"]


def of_json(count):
    """Renders a line for each of so many rows of JSON."""
    write("page.txt", [LIST])
    write("rows.json", json_rows(count))
    return "render page.txt --data rows.json".split()


def of_csv(count):
    """Renders a line for each of so many rows of CSV, of 110 bytes."""
    write("page.txt", [LIST])
    rows = (f"{n},name of row {n},{n}.50,{'x' * 50},user{n}@example.org\n" for n in range(count))
    write("rows.csv", (part for some in (["id,name,price,note,email\n"], rows) for part in some))
    return "render page.txt --data rows.csv".split()


# The works, each with its least size, and the file whose size its memory is compared with.
WORKS = {
    "`build`, pages with a layout": (build, 2_500, None),
    "`--each`, items": (each, 25_000, "people.json"),
    "JSON, rows of 400 bytes": (of_json, 31_250, "rows.json"),
    "CSV, rows of 110 bytes": (of_csv, 115_000, "rows.csv"),
}


def taken(words):
    """Runs a program, and returns its processor time, how long it took, and its peak of memory in MiB."""
    shutil.rmtree("out", ignore_errors=True)
    begun = time.monotonic()
    with open("text", "wb") as text:
        child = subprocess.Popen(words, stdout=text)
        _, status, usage = os.wait4(child.pid, 0)
    if status != 0:
        sys.exit(f"measure: {' '.join(words)}: status {status}")
    return usage.ru_utime + usage.ru_stime, time.monotonic() - begun, usage.ru_maxrss / 1024


def sum_of_written():
    """The sum of what a program has written: its output, and the pages with their paths."""
    found = hashlib.sha256()
    pages = sorted(os.path.join(at, name) for at, _, names in os.walk("out") for name in names)
    for path in ["text", *pages]:
        found.update(path.encode())
        with open(path, "rb") as file:
            found.update(file.read())
    return found.hexdigest()


def measured(name, programs):
    """Yields a line of the table for each program."""
    make, least, data = WORKS[name]
    runs, sums = {by: [] for by in programs}, {by: [] for by in programs}
    for size in (1, 2, 4):
        words = make(size * least)
        for by, program in programs.items():
            runs[by].append(taken([*program, *words]))
            sums[by].append(sum_of_written())
    if len({tuple(it) for it in sums.values()}) > 1:
        sys.exit(f"measure: {name}: the programs do not write the same")
    for by, (one, two, four) in runs.items():
        times = f"{four[2] * MIB / os.path.getsize(data):.1f}" if data else ""
        seconds = " | ".join(f"{it[0]:.2f}" for it in (one, two, four))
        memory = " | ".join(f"{it[2]:.0f}" for it in (one, two, four))
        grows = (four[0] - two[0]) / max(two[0] - one[0], 0.01)
        yield f"| {name} | {4 * least:,} | {by} | {seconds} | {grows:.1f} | {four[1]:.1f} | {memory} | {times} |"


def table(tool, with_jinja2):
    """Yields the lines of the table."""
    programs = {"upon-tool": [tool], **({"Jinja2": MADE_BY} if with_jinja2 else {})}
    yield "| work | 4n | by | seconds at n | 2n | 4n | growth | elapsed | MiB at n | 2n | 4n | times the data |"
    yield "|---|---|---|---|---|---|---|---|---|---|---|---|"
    for name in WORKS:
        with tempfile.TemporaryDirectory() as folder:
            os.chdir(folder)
            yield from measured(name, programs)
            os.chdir("/")
