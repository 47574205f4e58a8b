"""Includes: what they see, what is reported and in which template, and how deep they may go."""
from . import fails, gives, row, wrong

PARTS = {
    "t": "{{ a }}", "n": "{{ n }}", "text": "plain", "head.txt": "[{{ title }}]", "mail/foot": "-- {{ by }}",
    "deep": '{% include "n" %}', "loop": "{{ loop.index }}{{ x }}", "with": "{% with 2 as n %}{{ n }}{% endwith %}",
    "lines": "\n\n{{ a }}", "é": "e", "empty": "", "both": '{% include "t" %}{% include "n" %}', "broken list": "x{{ xs }}",
    "three": '{% include "deep" with {"n": 9} %}',
}


def texts():
    """What includes give."""
    context = {"a": 1, "n": 7, "title": "T", "by": "me", "xs": [1, 2], "user": {"a": 3, "n": 4}}
    rows = [
        ('{% include "t" %}', "1"), ('<{% include "text" %}>', "<plain>"), ('{% include "t" with {"a": 5} %}', "5"),
        ('{% include "t" with user %}', "3"), ('{% with 2 as a %}{% include "t" %}{% endwith %}', "2"),
        ('{% for a in xs %}{% include "t" %}{% endfor %}', "12"), ('{% for x in xs %}{% include "loop" %}{% endfor %}', "0112"),
        ('{% for x in xs %}{% include "t" with {"a": x} %}{% endfor %}', "12"), ('{% include "head.txt" %}', "[T]"),
        ('{% include "mail/foot" %}', "-- me"), ('{% include "deep" %}', "7"), ('{% include "with" %}{{ n }}', "27"),
        ('{% include "empty" %}', ""), ('{% include "é" %}', "e"), ('{% include "both" %}', "17"),
        ('{% include "three" %}', "9"),
        ('{% if 0 %}{% include "zz" %}{% else %}{% include "text" %}{% endif %}', "plain"),
        ('{% include "t" with (user) %}', "3"), ('{%- include "text" -%} x', "plainx"), ('{% include "\\u" %}', None),
        ('{% include "te\\x74" %}', None),
        ('{% include "" %}', None), ('{% include "t" %}{% include "t" %}', "11"),
        ('{% for x in [] %}{% else %}{% include "t" %}{% endfor %}', "1"),
    ]
    return [gives(source, text, context, templates=PARTS) for source, text in rows]


def faults():
    """What is reported: in the template that runs, with its lines."""
    context = {"n": 7, "xs": [1, 2], "s": "text"}
    more = {"context": context, "templates": PARTS}
    hidden = ('{% include "t" with 5 %}', '{% with 1 as a %}{% include "t" with {} %}{% endwith %}',
              '{% for a in xs %}{% include "t" with xs %}{% endfor %}', '{% include "t" with s %}', '{% include "t" %}')
    rows = [fails(source, "not found in this scope", 3, 4, template="t", **more) for source in hidden]
    return rows + [
        fails('a{% include "x" %}', "unknown template", 12, 15, "a", **more),
        fails('{% include "x" with n %}', "unknown template", 11, 14, **more),
        fails('{% include "x" with zz %}', "not found in this scope", 20, 22, **more),
        fails('{% include "T" %}', "unknown template", 11, 14, **more),
        fails('{% include "" %}', "unknown template", 11, 13, **more),
        fails('{% include "t " %}', "unknown template", 11, 15, **more),
        fails('{% include "lines" %}', "not found in this scope", 5, 6, "\n\n", template="lines", **more),
        fails('b{% include "broken list" %}', "expression evaluated to unformattable type list", 4, 6, "bx",
              template="broken list", kind="format error", **more),
        fails('{% include "n" %}{{ zz }}', "not found in this scope", 20, 22, "7", **more),
        fails('{% include "both" with {"a": 1} %}', "not found in this scope", 3, 4, "1", template="n", **more),
        fails('{% include "loop" %}', "not found in this scope", 3, 7, template="loop", **more),
        fails('{% for x in xs %}{% include "loop" with {"x": x} %}{% endfor %}', "not found in this scope", 3, 7,
              template="loop", **more),
        wrong('{% include "t" with %}', "expected expression, found end block", 20, 22),
        wrong('{% include "t" as x %}', "expected end block, found keyword", 15, 17),
        wrong('{% include "t', "undelimited string", 11, 13),
        wrong('{% include "t", "n" %}', "expected end block, found comma", 14, 15),
        wrong('{% include ("t") %}', "expected string, found open parenthesis", 11, 12),
        wrong("{% include t %}", "expected string, found identifier", 11, 12),
    ]


def too_deep(source, written, limit, **more):
    """A rendering that goes too deep."""
    reason = f"reached maximum include depth ({limit})"
    error = {"kind": "render error", "reason": reason, "template": None, "span": None, "picture": f"render error: {reason}"}
    return row(source, wanted={"written": written, "error": error}, **more)


def depths():
    """How deep includes may go: the template itself counts as one, and 0 acts as 1."""
    itself = {"s": 'x{% include "s" %}'}
    chain = {f"t{n}": f'{n}{{% include "t{n + 1}" %}}' for n in range(1, 6)} | {"t6": "6"}
    rows = [too_deep('x{% include "s" %}', "x" * max(depth, 1), depth, templates=itself, depth=depth) for depth in (0, 1, 2, 3,
                                                                                                                    10, 63, 64,
                                                                                                                    65, 100)]
    rows += [too_deep('x{% include "s" %}', "x" * 64, 64, templates=itself),
             gives('{% include "t1" %}', "123456", templates=chain, depth=7)]
    rows += [too_deep('{% include "t1" %}', "123456"[:depth - 1], depth, templates=chain, depth=depth) for depth in range(1, 7)]
    rows += [
        gives("a", "a", depth=0), gives("a", "a", depth=1),
        gives('{% include "t6" %}{% include "t6" %}{% include "t6" %}', "666", templates=chain, depth=2),
        fails('{% include "zz" %}', "unknown template", 11, 15, depth=1),
        fails('{% include "zz" with y %}', "not found in this scope", 21, 22, depth=1),
        fails('{% include "t6" with y %}', "not found in this scope", 21, 22, depth=1, templates=chain),
        too_deep('{% include "t6" with {} %}', "", 1, depth=1, templates=chain),
        fails('{% include "t" %}', "unknown template", 11, 15, template="t", depth=2, templates={"t": '{% include "zz" %}'}),
        too_deep('a{% if 1 %}{% include "t6" %}{% endif %}', "a", 1, depth=1, templates=chain),
        row('a{% include "page" %}', depth=4),
        row("{% for x in [1, 2] %}{% include \"s\" %}{% endfor %}", templates=itself, depth=2),
        gives('{% if ?.v %}{{ v }}{% include "page" with next %}{% endif %}', "123",
              {"v": 1, "next": {"v": 2, "next": {"v": 3, "next": {}}}}),
    ]
    return rows


def rows():
    """All of them."""
    return texts() + faults() + depths()
