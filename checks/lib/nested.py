"""Texts of templates that nest deep or go on long: for check-program, check-tool and checks/measure.

`nested.py KINDS` prints the names of the texts of some kinds (`blocks`, `tags` or `wraps`), a line each. `nested.py NAME
COUNT [MIDDLE]` prints the text of a name, with so many begins and ends, and with MIDDLE between them if it is given.
`nested.py about LITERAL COUNT TEXT` prints TEXT, in which words have literals of `lists`, `maps` or `both` in turn in their
place, that are so deep: `@LITERAL@` one around "x", without spaces; `@VALUE@` and `@AROUND@` one around "x" and one around `v`,
as in a tag; and `@PATH@` the path that leads from `v` to the innermost value of such a one.
"""
import sys


def hidden(before, begin, middle, end="", after=""):
    """The five texts of a row, put into a tag that is compiled, and not run, since `c` is empty."""
    return "{% if c %}{{ " + before, begin, middle, end, after + " }}{% endif %}"


# The text before the begins, a begin, the text between, an end, and the text after the ends. Those of blocks show an `x`
# where `a` is a text and `c` is empty.
BLOCKS = {
    "`if` blocks in each other": ("", "{% if a %}", "x", "{% endif %}", ""),
    "`else` branches in each other": ("", "{% if c %}{% else %}", "x", "{% endif %}", ""),
    "`for` blocks in each other": ("", "{% for x in [1] %}", "x", "{% endfor %}", ""),
    "`else` branches of `for` in each other": ("", "{% for x in [] %}{% else %}", "x", "{% endfor %}", ""),
    "`with` blocks in each other": ("", "{% with 1 as x %}", "x", "{% endwith %}", ""),
    "`else if` in a row": ("{% if c %}", "{% else if c %}", "", "", "{% else %}x{% endif %}"),
    "names in text": ("{% if c %}", "x{{ a }}", "", "", "{% endif %}x"),
}
TAGS = {
    "parentheses in each other": hidden("", "(", "a", ")"),
    "list literals in each other": hidden("", "[", "a", "]"),
    "map literals in each other": hidden("", '{"a": ', "a", "} "),
    "calls in each other": hidden("", "f(", "a", ")"),
    "arguments of filters in each other": hidden("", "(a | f: ", "a", ")"),
    "calls in a filter's argument": hidden("a | f: ", "f(", "a", ")"),
    "filters in a row": hidden("a", " | f", ""),
    "filters with arguments in a row": hidden("a", " | f: a", ""),
    "items of a list": hidden("[", "a, ", "", "", "]"),
    "members of a path": hidden("a", ".b", ""),
}
# What makes a value as deep as there are begins, each around a copy of the value that the one before made.
WRAPS = {
    "lists of a `with`": ("", "{% with [a] as a %}", "x", "{% endwith %}", ""),
    "maps of a `with`": ("", '{% with {"a": a} as a %}', "x", "{% endwith %}", ""),
    "lists of a `for`": ("", "{% for a in [[a]] %}", "x", "{% endfor %}", ""),
}
KINDS = {"blocks": BLOCKS, "tags": TAGS, "wraps": WRAPS}
TEXTS = BLOCKS | TAGS | WRAPS
# Of literals in each other: a begin and an end, the path from one to the next, and how many levels they are.
LITERALS = {"lists": ("[", "]", ".0", 1), "maps": ('{"a":', "}", ".a", 1), "both": ('[{"a":', "}]", ".0.a", 2)}


def text(name, count, middle=None):
    """The text of a name, with so many begins and ends."""
    before, begin, between, end, after = TEXTS[name]
    return before + begin * count + (between if middle is None else middle) + end * count + after


def about(literal, count, text):
    """A text in which words are literals that are so deep, or the path in one. No end of a literal is the end of a tag."""
    begin, end, step, levels = LITERALS[literal]
    times = count // levels
    begins, ends, spaced = begin * times, end * times, (end + " ") * times
    words = {"LITERAL": begins + '"x"' + ends, "VALUE": begins + '"x"' + spaced, "AROUND": begins + "v" + spaced, "PATH": "v" + step * times}
    for word, written in words.items():
        text = text.replace(f"@{word}@", written)
    return text


if __name__ == "__main__":
    if sys.argv[1] == "about":
        sys.stdout.write(about(sys.argv[2], int(sys.argv[3]), sys.argv[4]))
    elif len(sys.argv) == 2:
        print("\n".join(KINDS[sys.argv[1]]))
    else:
        sys.stdout.write(text(sys.argv[1], int(sys.argv[2]), *sys.argv[3:]))
