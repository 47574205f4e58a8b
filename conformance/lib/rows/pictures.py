"""Pictures: the line, the column as a terminal counts it, how much is marked, the number of the line, the name."""
from . import fails, row, wrong


def shown(source, reason, span, place, line, marks, kind="render error", written="", name="page", context=None, **more):
    """A row with its whole picture: the place is `line:column`, and the marks are under the line as they are given."""
    margin = " " * len(place.split(":")[0])
    title = "<anonymous>" if name is None else name
    picture = (f"{kind}\n\n {margin}--> {title}:{place}\n {margin} |\n {place.split(':')[0]} | {line}\n"
               f" {margin} | {marks}\n {margin} |\n {margin} = reason: {reason}\n")
    error = {"kind": kind, "reason": reason, "span": list(span), "template": name, "picture": picture}
    return row(source, context, {"written": written, "error": error}, name, **more)


def columns():
    """What is before a place on its line: wide characters, marks that go over others, tabs, control characters."""
    before = [("", 0), ("a", 1), ("é", 1), ("日", 2), ("日本", 4), ("e\u0301", 1), ("\t", 1), ("\t\t", 2), ("😀", 2), ("ａ", 2),
              ("ﾊ", 1), ("\u00a0", 1), ("\u200b", 0), ("привіт", 6), ("ß", 1), ("…", 1), ("“", 1), ("\u3000", 2), ("한", 2),
              ("\u0308", 0), ("a日é\tb", 6), ("𝒳", 1), ("\x01", 1), ("\u0085", 1), ("\x7f", 1), ("\u2028", 1)]
    rows = []
    for text, width in before:
        size = len(text.encode())
        for above, number in (("", 1), ("é日\n", 2), ("\n\n", 3)):
            m = len(above.encode()) + size + 3
            line = f"{text}{{{{ x }}}}"
            rows.append(shown(above + line, "not found in this scope", (m, m + 1), f"{number}:{width + 4}", line,
                              " " * (width + 3) + "^--", written=above + text))
    return rows


def widths():
    """How much is marked: a caret a column, and hyphens up to three."""
    names = [("x", 1), ("xy", 2), ("xyz", 3), ("xyzw", 4), ("a_longer_name_1", 15), ("é", 1), ("日", 2), ("日本語", 6),
             ("привіт", 6), ("e\u0301e", 2), ("𝒳y", 2)]
    rows = []
    for name, width in names:
        size = len(name.encode())
        marks = "^" * width + "-" * (3 - width)
        rows.append(shown(f"{{{{ {name} }}}}!", "not found in this scope", (3, 3 + size), "1:4", f"{{{{ {name} }}}}!",
                          "   " + marks))
    rows += [
        shown("{{", "expected token, found EOF", (2, 2), "1:3", "{{", "  ^--", "invalid syntax"),
        shown("{{ a", "expected end expression, found EOF", (4, 4), "1:5", "{{ a", "    ^--", "invalid syntax"),
        shown('{{ "日本', "undelimited string", (3, 10), "1:4", '{{ "日本', "   ^^^^^", "invalid syntax"),
        shown("{{ é @ }}", "unexpected character", (6, 7), "1:6", "{{ é @ }}", "     ^--", "invalid syntax"),
        shown("{{ 日?本 }}", "unexpected character", (6, 10), "1:6", "{{ 日?本 }}", "     ^^^", "invalid syntax"),
        shown("{{ 。 }}", "unexpected character", (3, 6), "1:4", "{{ 。 }}", "   ^^-", "invalid syntax"),
        shown('{{ "\\日" }}', "unknown escape character", (5, 8), "1:6", '{{ "\\日" }}', "     ^^-", "invalid syntax"),
        shown("{{ \u0301 }}", "unexpected character", (3, 5), "1:4", "{{ \u0301 }}", "   ^--", "invalid syntax"),
        shown("{{ [1", "expected close bracket, found EOF", (5, 5), "1:6", "{{ [1", "     ^--", "invalid syntax"),
        shown("日{{ [1 }}", "unclosed open bracket", (6, 7), "1:6", "日{{ [1 }}", "     ^--", "invalid syntax"),
    ]
    return rows


def lines():
    """Which line is shown: line ends of each kind, the end of a text after one, spans over several lines, long texts."""
    syntax = "invalid syntax"
    rows = [
        shown("{{\n", "expected token, found EOF", (3, 3), "2:1", "", "^--", syntax),
        shown("{{ a\n\n", "expected end expression, found EOF", (6, 6), "3:1", "", "^--", syntax),
        shown("a\n{{ x }}\nb", "not found in this scope", (5, 6), "2:4", "{{ x }}", "   ^--", written="a\n"),
        shown("a\r\n{{ x }}\r\nb", "not found in this scope", (6, 7), "2:4", "{{ x }}\r", "   ^--", written="a\r\n"),
        shown("a\r{{ x }}", "not found in this scope", (5, 6), "1:6", "a\r{{ x }}", "     ^--", written="a\r"),
        shown("{{\nx\n}}", "not found in this scope", (3, 4), "2:1", "x", "^--"),
        shown("{{ a\n.b }}", "not found in map", (5, 7), "2:1", ".b }}", "^^-", context={"a": {}}),
        shown("{% if\n1 %}", "unclosed `if` block", (0, 10), "1:1", "{% if", "^^^^^^^^^^", syntax),
        shown("{% for x in [\n1] %}", "unclosed `for` block", (0, 19), "1:1", "{% for x in [", "^" * 19, syntax),
        shown("x\n{% if 1\n\n%}", "unclosed `if` block", (2, 13), "2:1", "{% if 1", "^" * 11, syntax),
        shown("{% with 1 as\r\nx %}", "unclosed `with` block", (0, 18), "1:1", "{% with 1 as\r", "^" * 17, syntax),
        shown("{{ [\n1,\n2\n}}", "unclosed open bracket", (3, 4), "1:4", "{{ [", "   ^--", syntax),
        shown("\n\n\n{{ @ }}\n\n", "unexpected character", (6, 7), "4:4", "{{ @ }}", "   ^--", syntax),
        shown("{{ \"a\nb\" }}", "undelimited string", (3, 5), "1:4", '{{ "a', "   ^^-", syntax),
        shown("{{ 1 }}\n{# a\nb", "expected end comment, found EOF", (14, 14), "3:2", "b", " ^--", syntax),
        shown("é\n{{ x }}", "not found in this scope", (6, 7), "2:4", "{{ x }}", "   ^--", written="é\n"),
        shown("\u2028{{ x }}", "not found in this scope", (6, 7), "1:5", "\u2028{{ x }}", "    ^--", written="\u2028"),
    ]
    for above in (8, 9, 10, 98, 99, 100, 999):
        source = "a\n" * above + "{{ x }}"
        rows.append(shown(source, "not found in this scope", (2 * above + 3, 2 * above + 4), f"{above + 1}:4", "{{ x }}",
                          "   ^--", written="a\n" * above))
    for length in (40, 120, 300):
        line = "a" * length + "{{ x }}"
        rows.append(shown(line, "not found in this scope", (length + 3, length + 4), f"1:{length + 4}", line,
                          " " * (length + 3) + "^--", written="a" * length))
    return rows


def names():
    """The template's name: none, and odd ones."""
    named = (None, "a", "mail/head.txt", "日本", "a b", "x:1", "<anonymous>")
    rows = [shown("{{ x }}", "not found in this scope", (3, 4), "1:4", "{{ x }}", "   ^--", name=name) for name in named]
    wrong_texts = [("{{", "expected token, found EOF", (2, 2)), ("{{ a @ }}", "unexpected character", (5, 6)),
                   ("{{ a b }}", "expected end expression, found identifier", (5, 6))]
    for source, reason, span in wrong_texts:
        marks = " " * span[0] + "^--"
        rows.append(shown(source, reason, span, f"1:{span[0] + 1}", source, marks, "invalid syntax", name=None))
    rows += [
        row("{{ xs }}", {"xs": [1]}, {"written": "", "error": {"kind": "format error", "span": [3, 5], "template": None}},
            None), row("Hello {{ name }}!", {"name": "John"}, {"text": "Hello John!"}, None),
        fails('{% include "x" %}', "unknown template", 11, 14, template=None)._replace(case={"source": '{% include "x" %}'}),
        fails('{% include "t" %}', "not found in this scope", 3, 4,
              template="t")._replace(case={"source": '{% include "t" %}', "templates": {"t": "{{ x }}"}}),
    ]
    pictured = "render error\n\n  --> mail/t:2:4\n   |\n 2 | {{ x }}\n   |    ^--\n   |\n   = reason: not found in this scope\n"
    rows.append(row('{% include "mail/t" %}', None, {"written": "\n", "error": {"picture": pictured, "template": "mail/t"}},
                    templates={"mail/t": "\n{{ x }}"}))
    return rows


def rows():
    """All of them."""
    return columns() + widths() + lines() + names() + [wrong("{% if 1 %}\n\t{{ a b }}",
                                                             "expected end expression, found identifier", 17, 18)]
