"""Calls of bindings/python with each status, option and refusal; prints how many it made, and how many were wrong."""
import concurrent.futures
import json
import os
import re
import resource
import sys

import upon_proved
from upon_proved import OutOfMemory, UponError, check, names, render, render_text, version

PAGE = {"page": '{% include "head" %}{{ text }}', "head": "# {{ title }}\n"}
CONTEXT = {"title": "T", "text": "it's \"é\"\n"}
ROWS = "{% for row in items %}{{ row }};{% endfor %}"
NESTED = {"page": 'a{% include "b" %}', "b": 'b{% include "c" %}', "c": "c"}
ASP = [("expr", "<?", "?>"), ("block", "<%", "%>"), ("comment", "<#", "#>")]


def picture(kind, template, column, source, marks, reason):
    """The picture of an error in the first line of a source."""
    lines = ["", f"  --> {template}:1:{column}", "   |", f" 1 | {source}", "   | " + " " * (column - 1) + marks, "   |"]
    return "\n".join([kind, *lines, f"   = reason: {reason}", ""])


def not_found(column, name, source, template="<anonymous>"):
    """The picture of a name that is not in the context."""
    return picture("render error", template, column, source, ("^" * len(name)).ljust(3, "-"), "not found in this scope")


def syntax_error(template, source, column, marks, reason):
    """The picture of a syntax error."""
    return picture("invalid syntax", template, column, source, marks, reason)


BROKEN = syntax_error("broken", "x{{", 4, "^--", "expected token, found EOF")
ROW = '{% for row in rows %}{{ row.prise }}{% endfor %}'
MAY_MISS = picture("render error", "page", 28, ROW, "^^^^^^", "may be missing: the value is a map with name, price") \
    + "   = hint: there is `price`\n"
MAY_LACK = picture("render error", "head", 6, "# {{ title }}", "^^^^^", "may be missing: the value is an empty map")
MISSING = picture("render error", "page", 12, '{% include "foot" %}', "^^^^^^", "unknown template")
UNKNOWN = picture("render error", "<anonymous>", 4, "{{ upper(title) }}", "^^^^^", "unknown formatter or function")
OPEN = syntax_error("<anonymous>", "{{", 3, "^--", "expected token, found EOF")

# A call's source or templates, whose first is rendered, its context and options; and its text, or its error's picture.
RENDERED = [
    ("", b"", {}, ""),
    ("plain", {}, {}, "plain"),
    (PAGE, CONTEXT, {}, "# T\nit's \"é\"\n"),
    (ROWS, [1, True, "x", 2.50, 10**20], {}, "1;true;x;2.5;100000000000000000000;"),
    ("{{ a }}{{ b }}", b'\xef\xbb\xbf{"a": 1.50, "a": 2.50, "b": "\\u00e9\\ud83d\\ude00"}', {}, "2.50é😀"),
    ("{{ name }}", {"name": "x" * 100_000}, {}, "x" * 100_000),
    ("{{ name }}", {"name": "x" * 4096}, {}, "x" * 4096),
    ("{{ name }}", {"name": "x" * 4097}, {}, "x" * 4097),
    ("{{ text }}", CONTEXT, {"html": True}, "it&#39;s &quot;é&quot;\n"),
    ("{{ text }}", CONTEXT, {"escape": "html"}, "it&#39;s &quot;é&quot;\n"),
    ("{{ text }}", CONTEXT, {"escape": "html", "html": True}, "it&#39;s &quot;é&quot;\n"),
    ("{{ text }}", CONTEXT, {"escape": "json"}, 'it\'s \\"é\\"\\n'),
    ("{{ text }}", CONTEXT, {"escape": "yaml"}, 'it\'s \\"é\\"\\n'),
    ("{{ text }}", CONTEXT, {"escape": "shell"}, "'it'\\''s \"é\"\n'"),
    ("{{ text | verbatim }}", CONTEXT, {"html": True}, CONTEXT["text"]),
    ("<? title ?>{{<% if title %>!<% endif %><# note #>", CONTEXT, {"syntax": ASP}, "T{{!"),
    ("<? title ?>{% if title %}", CONTEXT, {"syntax": ASP[:1]}, "T{% if title %}"),
    ("{{ upper(title) }}{{ title | lower }}", CONTEXT, {"functions": True}, "Tt"),
    (NESTED, {}, {"max_include_depth": 3}, "abc"),
    (ROWS, [1, 2], {"max_steps": 1000, "max_output": 4, "max_memory": 1000}, "1;2;"),
    ("Hello {{ name }}!", {}, {}, not_found(10, "name", "Hello {{ name }}!")),
    ({"page": "{{ a }}"}, {}, {}, not_found(4, "a", "{{ a }}", "page")),
    ({"my: page:1": "{{ a }}"}, {}, {}, not_found(4, "a", "{{ a }}", "my: page:1")),
    ("{{ upper(title) }}", CONTEXT, {}, UNKNOWN),
    ("{{", {}, {}, OPEN),
    ({"page": "", "broken": "x{{"}, {}, {}, BROKEN),
    ({"page": '{% include "foot" %}'}, {}, {}, MISSING),
    (NESTED, {}, {"max_include_depth": 2}, "render error: reached maximum include depth (2)"),
]
# Calls that pass a limit: the options, and what the error's picture ends with.
LIMITED = [
    ({"max_steps": 3}, "reached the limit of 3 steps"),
    ({"max_output": 3}, "reached the limit of 3 bytes"),
    ({"max_memory": 3}, "reached the limit of 3 bytes of values"),
]
# Calls of C: the function, its texts, the status, and how what it writes begins.
GOOD = b"{}"
REFUSED = [
    ("render_text", (b"\xff", GOOD, GOOD), 3, "source is not UTF-8"),
    ("render_text", (b"", b"\xc3", GOOD), 3, "context is not UTF-8"),
    ("render_text", (b"", GOOD, b"\xed\xa0\x80"), 3, "options is not UTF-8"),
    ("render", (b"\xff", GOOD, b"", GOOD), 3, "templates is not UTF-8"),
    ("render", (GOOD, b"\xff", b"", GOOD), 3, "context is not UTF-8"),
    ("render", (GOOD, GOOD, b"\xff", GOOD), 3, "name is not UTF-8"),
    ("render", (GOOD, GOOD, b"", b"\xff"), 3, "options is not UTF-8"),
    ("check", (b"\xff", GOOD), 3, "templates is not UTF-8"),
    ("check", (GOOD, b"\xff"), 3, "options is not UTF-8"),
    ("names", (b"\xff", b"", GOOD), 3, "templates is not UTF-8"),
    ("names", (GOOD, b"\xff", GOOD), 3, "name is not UTF-8"),
    ("names", (GOOD, b"", b"\xff"), 3, "options is not UTF-8"),
    ("render_text", (b"", b"{", GOOD), 2, "context: "),
    ("render_text", (b"", b"1", GOOD), 2, "context: neither an object nor a list"),
    ("render_text", (b"", b"[" * 129 + b"]" * 129, GOOD), 2, "context: "),
    ("render_text", (b"", b'{"a": "\\ud800"}', GOOD), 2, "context: "),
    ("render", (b"{", GOOD, b"", GOOD), 2, "templates: "),
    ("render", (b'{"a": 1}', GOOD, b"a", GOOD), 2, 'templates: "a" wants a text'),
    ("render", (b'{"a": ""}', GOOD, b"b", GOOD), 2, 'name: no template is named "b"'),
    ("check", (b"[]]", GOOD), 2, "templates: "),
    ("names", (GOOD, b"b", GOOD), 2, 'name: no template is named "b"'),
]
NUMBERS = ["max_include_depth", "max_steps", "max_output", "max_memory"]
NO_SYNTAX = [[], [["block", "<", ">"]], [["expr", "<"]], [["expr", "", ">"]]]
# Options that are refused, and what is said of them.
OPTIONS = [
    (b"{", ""),
    (b"true", "neither an object nor a list"),
    (b'{"colour": 1}', 'unknown key "colour"'),
    *((json.dumps({key: 1}).encode(), f'"{key}" wants') for key in ("html", "escape", "syntax", "functions")),
    *((json.dumps({key: -1}).encode(), f'"{key}" wants') for key in NUMBERS),
    (b'{"max_steps": 1.0}', '"max_steps" wants'),
    (b'{"escape": "xml"}', '"escape" wants'),
    (b'{"escape": "json", "html": true}', '"escape" wants'),
    *((json.dumps({"syntax": it}).encode(), '"syntax" wants') for it in NO_SYNTAX),
    (b'{"syntax": [["expr", "<", ">"], ["tag", "(", ")"]]}', '"syntax" wants'),
]
# Options of a check alone.
ON_CONTEXTS = [
    (b'{"samples": []}', '"samples" wants'),
    (b'{"samples": {}}', '"samples" wants'),
    (b'{"samples": [{}, 1]}', '"samples" wants'),
    (b'{"samples": [{}], "schema": true}', '"schema" wants no "samples"'),
    (b'{"pages": []}', '"pages" wants "samples" or "schema"'),
    (b'{"samples": [{}], "pages": {}}', '"pages" wants a list of names'),
    (b'{"samples": [{}], "pages": ["b"]}', '"pages": no template is named "b"'),
    (b'{"samples": [{}], "colour": 1}', 'unknown key "colour"'),
    (b'{"samples": [{}], "functions": 1}', '"functions" wants'),
]

made = wrong = 0


def expect(name, got, wanted):
    """Compares what a call gave with what is wanted."""
    global made, wrong
    made += 1
    if got != wanted:
        wrong += 1
        print(f"calls: {name}:\n  got    {got!r}\n  wanted {wanted!r}", file=sys.stderr)


def outcome(call, *arguments, **options):
    """Returns what a call gives, or its error."""
    try:
        return call(*arguments, **options)
    except UponError as error:
        return error


def rendered(template, context, options):
    """Returns the text of a source, or of the first of templates, or the picture of its error."""
    call = render_text if isinstance(template, str) else render
    words = [template] if isinstance(template, str) else [template, next(iter(template))]
    return str(outcome(call, *words, context, **options))


def raw(function, texts):
    """Makes a call of C."""
    return upon_proved._call(getattr(upon_proved._library, f"upon_{function}"), *texts)


def parts(error):
    """Returns the parts of an error."""
    return (type(error).__name__, *(getattr(error, part, None) for part in ("kind", "template", "line", "column")))


def try_errors():
    """Errors by their parts."""
    missed = outcome(render, {"a:1": "\n {{ b }}"}, "a:1", {})
    expect("an error with a place", parts(missed), ("UponError", "render error", "a:1", 2, 5))
    expect("an error without a name", parts(outcome(render_text, "{{", {})), ("UponError", "invalid syntax", None, 1, 3))
    deep = outcome(render, NESTED, "page", {}, max_include_depth=1)
    expect("an error without a place", parts(deep), ("UponError", "render error", None, None, None))
    refused = outcome(render_text, "", b'{"a":\n x}')
    expect("a refusal with a place", parts(refused), ("UponError", "refused", None, 2, 2))
    expect("a refusal without one", parts(outcome(render, PAGE, "b", {})), ("UponError", "refused", None, None, None))


def try_checks():
    """Templates that are checked, and what they need."""
    expect("templates without errors", check(PAGE), [])
    expect("no templates", check({}), [])
    expect("templates with errors", check({"page": '{% include "foot" %}', "broken": "x{{", "good": ""}), [BROKEN, MISSING])
    expect("a syntax", check({"page": "{{<? a ?>"}, syntax=ASP), [])
    for samples in [CONTEXT], [CONTEXT, {"title": None, "text": 1}]:
        expect("a page on samples", check(PAGE, samples=samples, html=True, max_include_depth=9), [])
    expect("a list as a sample", check({"page": ROWS}, samples=[[1, "a"], []]), [])
    rows = [{"name": "tea", "price": 3}]
    expect("a member that may be missing", check({"page": ROW}, samples=[{"rows": rows}, {"rows": []}]), [MAY_MISS])
    part = {"page": '{% include "head" with user %}', "head": "# {{ title }}"}
    sample = {"user": {"title": "T"}}
    expect("pages", check(part, samples=[sample], pages=["page"]), [])
    expect("each template", check(part, samples=[{}]), [MAY_LACK, picture("render error", "page", 24, part["page"], "^^^^",
           "may be missing: the value is an empty map")])
    expect("one that is broken", check({"page": "x", "broken": "x{{"}, samples=[{}]), [BROKEN])
    schema = {"type": "object", "properties": {"rows": {"type": "array", "items": {"type": "string"}}}, "required": ["rows"]}
    expect("a schema", check({"page": "{% for row in rows %}{{ row }}{% endfor %}"}, schema=schema), [])
    needed = {"missing": [], "names": ["text", "title"], "templates": ["head"], "whole": False}
    expect("what a template needs", names(PAGE, "page"), needed)
    needed = {"missing": ["foot"], "names": [], "templates": [], "whole": False}
    expect("what is missing", names({"page": '{% include "foot" %}'}, "page"), needed)


def memory_refused():
    """Whether a rendering says that memory is out where it may take little more of it."""
    limits = resource.getrlimit(resource.RLIMIT_AS)
    with open("/proc/self/statm", encoding="ascii") as file:
        used = int(file.read().split()[0]) * os.sysconf("SC_PAGE_SIZE")
    resource.setrlimit(resource.RLIMIT_AS, (used + (64 << 20), limits[1]))
    try:
        render_text("{% for x in items %}{% for y in items %}" + "x" * 100_000 + "{% endfor %}{% endfor %}", list(range(100)))
    except OutOfMemory:
        return True
    finally:
        resource.setrlimit(resource.RLIMIT_AS, limits)
    return False


def main():
    for template, context, options, wanted in RENDERED:
        expect(f"{template}, {options}"[:200], rendered(template, context, options), wanted)
    for options, reason in LIMITED:
        text = rendered("{% for x in [a, a] %}{{ x }}{% endfor %}", {"a": "xyz"}, options)
        expect(f"{options}", re.findall("= reason: (.*)\n", text), [reason])
    for function, texts, status, begin in REFUSED:
        got, text = raw(function, texts)
        expect(f"{function} {texts}"[:200], (got, text[: len(begin)]), (status, begin))
    for options, begin in OPTIONS:
        for function, texts in (("render_text", (b"", b"")), ("render", (b"", b"", b"")), ("check", (b"",)), ("names", (b"", b""))):
            got, text = raw(function, (*texts, options))
            expect(f"{function} {options}", (got, text[: len(begin) + 9]), (2, "options: " + begin))
    for options, begin in ON_CONTEXTS:
        got, text = raw("check", (b'{"a": ""}', options))
        expect(f"check {options}", (got, text[: len(begin) + 9]), (2, "options: " + begin))
    for key, value in (("samples", [{}]), ("schema", True), ("pages", [])):
        options = json.dumps({key: value}).encode()
        for function, texts in (("render_text", (b"", b"")), ("render", (b"", b"", b"")), ("names", (b"", b""))):
            expect(f"{function} {key}", raw(function, (*texts, options)), (2, f'options: unknown key "{key}"'))
    try_errors()
    try_checks()
    expect("the version", version(), "0.11.0")
    expect("memory that is out", memory_refused(), True)
    with concurrent.futures.ThreadPoolExecutor(8) as pool:
        texts = set(pool.map(lambda _: render(PAGE, "page", CONTEXT, html=True), range(2000)))
    expect("threads", texts, {"# T\nit&#39;s &quot;é&quot;\n"})
    print(made, wrong)


if __name__ == "__main__":
    main()
