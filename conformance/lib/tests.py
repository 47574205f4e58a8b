"""The cases that neither the tool nor libupon can be asked, as rows of a crate of tests."""
import json
import os

from cases import TOP

PATH = os.path.join(TOP, "checks/unproved-tests/upon_conformance_tests/src/rows.rs")
HEAD = """// Written by conformance/write: the cases that neither the tool nor libupon can be asked.

// A case, and what has to be written and how it has to end.
pub struct Row {
    pub id: &'static str,
    pub source: &'static str,
    pub has_name: bool,
    pub name: &'static str,
    pub context: &'static str,
    pub templates: &'static [(&'static str, &'static str)],
    pub has_syntax: bool,
    pub syntax: &'static [(&'static str, &'static str, &'static str)],
    pub callables: &'static [&'static str],
    pub default_formatter: &'static str,
    pub depth: usize,
    pub fails_at: usize,
    pub written: &'static str,
    pub end: &'static str,
}

pub const ROWS: &[Row] = &[
"""


def is_asked_of_c(case):
    """Whether libupon has an option for each part of a case."""
    sorts = [sort for sort, _, _ in case.get("syntax", [["expr", "", ""]])]
    usual = sorts[:1] == ["expr"] and sorts == [sort for sort in ("expr", "block", "comment") if sort in sorts]
    own = any(part in case for part in ("callables", "default_formatter", "writer"))
    return usual and ("name" in case or "templates" not in case) and not own


def text(given):
    """A text as Rust writes it, in ASCII."""
    kept = {"\n": "\\n", '"': '\\"', "\\": "\\\\"}
    letters = [kept.get(it, it if 32 <= ord(it) < 127 or it == "\n" else f"\\u{{{ord(it):x}}}") for it in given]
    return '"' + "".join(letters) + '"'


def listed(parts):
    """A list as Rust writes it."""
    return "&[" + ", ".join(parts) + "]"


def end_of(answer):
    """How a case ends: the line of its error, with the span and the template's name, and the picture."""
    if "text" in answer:
        return ""
    error = answer["error"]
    line = error["kind"] if error["reason"] is None else f"{error['kind']}: {error['reason']}"
    line += f" at {error['span'][0]}..{error['span'][1]}" if error["span"] else ""
    line += f" in {error['template']}" if error["template"] is not None else ""
    return f"{line}\n{error['picture']}"


def row_of(case):
    """A case as a row."""
    answer = case["answer"]
    fields = {
        "id": text(case["id"]), "source": text(case["source"]),
        "has_name": str("name" in case).lower(), "name": text(case.get("name", "")),
        "context": text(json.dumps(case.get("context", {}))),
        "templates": listed([f"({text(name)}, {text(source)})" for name, source in case.get("templates", {}).items()]),
        "has_syntax": str("syntax" in case).lower(),
        "syntax": listed([f"({', '.join(map(text, one))})" for one in case.get("syntax", [])]),
        "callables": listed(map(text, case.get("callables", []))),
        "default_formatter": text(case.get("default_formatter", "")),
        "depth": str(case.get("depth", 64)), "fails_at": str(case.get("writer", {}).get("fails_at", 0)),
        "written": text(answer["text"] if "text" in answer else answer["written"]), "end": text(end_of(answer)),
    }
    return "    Row {\n" + "".join(f"        {name}: {part},\n" for name, part in fields.items()) + "    },\n"


def rows_of(cases):
    """The file of the rows."""
    return HEAD + "".join(row_of(case) for case in cases if not is_asked_of_c(case)) + "];\n"
