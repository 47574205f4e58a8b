"""Functions and formatters: by filters and calls, emitted and not, and the order in which what is wrong is reported."""
import itertools

from . import fails, gives, row

OWN = ["double", "sum", "low", "no", "pair", "nothing", "fmt", "stop", "mute"]
CONTEXT = {"a": 5, "s": "ab", "xs": [1, 2], "m": {"k": 1}, "n": None, "yes": True}


def given():
    """What functions give, emitted, in a condition, in a list, a map, a loop, a `with` and an include."""
    rows = [
        ("{{ 21 | double }}", "42"), ("{{ double(21) }}", "42"), ("{{ (21 | double) }}", "42"),
        ("{{ sum(1, 2) | double }}", "6"), ("{{ 1 | sum: 2 }}", "3"), ("{{ 1 | sum: 2 | sum: 3 }}", "6"),
        ("{{ a | double | double }}", "20"),
        ("{{ double(double(a)) }}", "20"), ("{{ sum(double(1), (2 | double)) }}", "6"), ("{{ 1 | sum: (2 | double) }}", "5"),
        ("{{ (1 | sum: 2) | double }}", "6"), ("{{ 255 | low }}", "255"), ("{{ nothing() }}", ""), ("{{ (nothing()) }}", ""),
        ("{{ 9223372036854775807 | double }}", "-2"), ("{{ 9223372036854775807 | sum: 1 }}", "-9223372036854775808"),
        ("{% if 0 | double %}a{% else %}b{% endif %}", "b"), ("{% if not nothing() %}a{% endif %}", "a"),
        ("{% for x in pair(7) %}{{ x }}{% endfor %}", "77"), ("{% for x in 7 | pair %}{{ x }}{% endfor %}", "77"),
        ("{% for x in [double(1), (2 | double)] %}{{ x }}{% endfor %}", "24"),
        ("{% with a | double as b %}{{ b }}{% endwith %}", "10"),
        ('{% for k, v in {"a": double(1)} %}{{ k }}{{ v }}{% endfor %}', "a2"),
        ('{% include "t" with {"v": double(4)} %}', "8"), ('{% include "u" with 7 | pair %}', "7"),
        ("{% with pair(a) as p %}{{ p.0 }}{{ p.1 }}{% endwith %}", "55"),
        ("{{ 1 | fmt }}", "<1>"), ("{{ fmt(1) }}", "<1>"), ("{{ (1 | fmt) }}", "<1>"), ("{{ ((fmt(1))) }}", "<1>"),
        ("{{ a | double | fmt }}", "<10>"), ("{{ fmt(double(a)) }}", "<10>"), ("{{ n | fmt }}", "<>"),
        ("{{ s | fmt }}", "<ab>"), ("{{ yes | fmt }}", "<true>"),
        ("{{ nothing() | fmt }}", "<>"), ("{{ ?.zz | fmt }}", "<>"), ("x{{ s|fmt }}{{ s | fmt }}y", "x<ab><ab>y"),
        ("{{ double ( 4 ) }}", "8"), ("{{ 4|double }}", "8"), ("{{ 4 |\ndouble }}", "8"), ("{{ double( \n4\n) }}", "8"),
        ("{% if 0 %}{{ zz(1) }}{% endif %}", ""),
        ("{% with 1 as double %}{{ double | double }}{{ double }}{% endwith %}", "21"),
        ("{% for double in xs %}{{ double(double) }}{% endfor %}", "24"),
    ]
    templates = {"t": "{{ v }}", "u": "{{ .0 }}"}
    return [gives(source, text, CONTEXT, callables=OWN, templates=templates) for source, text in rows]


# What can be wrong with a call: the template, the reason and the span; then the same of functions and formatters that refuse,
# with what is written before and the kind of error.
LONG, BYTE = "function `double` expects i64 argument", "function `low` expects u8 argument"
REFUSED = [
    ("{{ zz(1) }}", "unknown formatter or function", 3, 5), ("{{ 1 | zz }}", "unknown formatter or function", 7, 9),
    ("{{ (1 | zz) }}", "unknown formatter or function", 8, 10),
    ("{{ 1 | double | zz }}", "unknown formatter or function", 16, 18),
    ("{{ 1 | zz | double }}", "unknown function", 7, 9), ("{{ [zz(1)] }}", "unknown function", 4, 6),
    ("{{ double(zz()) }}", "unknown function", 10, 12), ("{% if zz() %}{% endif %}", "unknown function", 6, 8),
    ("{% for x in 1 | zz %}{% endfor %}", "unknown function", 16, 18),
    ("{% with 1 | zz as x %}{% endwith %}", "unknown function", 12, 14),
    ('{% include "t" with zz() %}', "unknown function", 20, 22),
    ("{{ 1 | double: 2 }}", "function expects 1 arguments, 2 provided", 7, 13),
    ("{{ sum(1) }}", "function expects 2 arguments, 1 provided", 3, 6),
    ("{{ 1 | sum }}", "function expects 2 arguments, 1 provided", 7, 10),
    ("{{ 1 | sum: 2, 3 }}", "function expects 2 arguments, 3 provided", 7, 10),
    ("{{ nothing(1) }}", "function expects 0 arguments, 1 provided", 3, 10),
    ("{{ 1 | nothing }}", "function expects 0 arguments, 1 provided", 7, 14),
    ("{% if double() %}{% endif %}", "function expects 1 arguments, 0 provided", 6, 14),
    ("{% if 1 | sum %}{% endif %}", "function expects 2 arguments, 1 provided", 6, 13),
    ("{% if 1 | sum: 2, 3 %}{% endif %}", "function expects 2 arguments, 3 provided", 6, 19),
    ("{{ [double()] }}", "function expects 1 arguments, 0 provided", 4, 12),
    ("{{ 1 | sum | double }}", "function expects 2 arguments, 1 provided", 3, 10),
    ("{{ (1) | sum | double }}", "function expects 2 arguments, 1 provided", 3, 12),
    ("{{ ((double()))}}", "function expects 1 arguments, 0 provided", 5, 11),
    ('{{ "x" | double }}', f"{LONG}, found string", 3, 6), ('{{ ("x") | double }}', f"{LONG}, found string", 4, 7),
    ("{{ double(n) }}", f"{LONG}, found none", 10, 11),
    ("{{ double(m.k?.z) }}", "integer does not support key-based access", 13, 16),
    ("{{ yes | double }}", f"{LONG}, found bool", 3, 6),
    ("{{ xs | double }}", f"{LONG}, found list", 3, 5), ("{{ double(m) }}", f"{LONG}, found map", 10, 11),
    ("{{ double((m)) }}", f"{LONG}, found map", 11, 12), ("{{ double([1]) }}", f"{LONG}, found list", 10, 13),
    ("{{ s | pair | double }}", f"{LONG}, found list", 3, 11),
    ('{{ sum("a", "b") }}', "function `sum` expects i64 argument, found string", 7, 10),
    ('{{ sum(1, "b") }}', "function `sum` expects i64 argument, found string", 10, 13),
    ('{{ 1 | sum: "b" }}', "function `sum` expects i64 argument, found string", 12, 15),
    ("{% if double(s) %}{% endif %}", f"{LONG}, found string", 13, 14),
    ("{{ 256 | low }}", f"{BYTE}, but `256` is out of range", 3, 6),
    ("{{ -1 | low }}", f"{BYTE}, but `-1` is out of range", 3, 5),
    ("{{ low(9223372036854775807) }}", f"{BYTE}, but `9223372036854775807` is out of range", 7, 26),
    ("{{ low(0x100) }}", f"{BYTE}, but `256` is out of range", 7, 12),
    ("{{ low(- 9223372036854775808) }}", f"{BYTE}, but `-9223372036854775808` is out of range", 7, 28),
    ("{{ double(150) | low }}", f"{BYTE}, but `300` is out of range", 3, 14),
    ("{{ s | low }}", f"{BYTE}, found string", 3, 4),
    ("{% if low(300) %}{% endif %}", f"{BYTE}, but `300` is out of range", 10, 13),
    ("{% if 1 | fmt %}{% endif %}", "expected function, found formatter", 10, 13),
    ("{{ [fmt(1)] }}", "expected function, found formatter", 4, 7),
    ("{{ 1 | fmt | double }}", "expected function, found formatter", 7, 10),
    ("{{ [(1 | fmt)] }}", "expected function, found formatter", 9, 12),
    ("{% for x in fmt(xs) %}{% endfor %}", "expected function, found formatter", 12, 15),
    ('{{ {"a": fmt(1)} }}', "expected function, found formatter", 9, 12),
    ("{{ 1 | fmt: 2 }}", "formatter expects 1 argument, 2 provided", 7, 10),
    ("{{ fmt() }}", "formatter expects 1 argument, 0 provided", 3, 6),
    ("{{ fmt(1, 2, 3) }}", "formatter expects 1 argument, 3 provided", 3, 6),
    ("{{ (1 | fmt: 2) }}", "formatter expects 1 argument, 2 provided", 8, 11),
    ("{{ zz(b) }}", "not found in this scope", 6, 7), ("{{ b | zz }}", "not found in this scope", 3, 4),
    ("{{ 1 | zz: b }}", "not found in this scope", 11, 12),
    ("{{ double(b, 1) }}", "not found in this scope", 10, 11), ("{{ b | sum: c }}", "not found in this scope", 3, 4),
    ("{{ sum(b, c) }}", "not found in this scope", 7, 8), ("{{ 1 | sum: c, d }}", "not found in this scope", 12, 13),
    ("{{ fmt(b, c) }}", "not found in this scope", 7, 8), ('{{ [b, "x" | f] }}', None, 0, 0),
    ('{{ double("x", 1) }}', "function expects 1 arguments, 2 provided", 3, 9),
    ("{{ sum(s) }}", "function expects 2 arguments, 1 provided", 3, 6),
    ("{{ 300 | low: s }}", "function expects 1 arguments, 2 provided", 9, 12),
    ("{{ fmt(xs, 1) }}", "formatter expects 1 argument, 2 provided", 3, 6),
    ('{{ sum("x", n) }}', "function `sum` expects i64 argument, found string", 7, 10),
    ("{{ no(1) }}", "function `no` expects &str argument, found integer", 6, 7),
    ("{{ no() }}", "function expects 1 arguments, 0 provided", 3, 5),
]
REFUSED_KINDS = [
    ("{{ s | no }}", "no", 7, 9, "", "function error"), ("{{ no(s) }}", "no", 3, 5, "", "function error"),
    ("{{ (no(s)) }}", "no", 4, 6, "", "function error"), ("{% if s | no %}{% endif %}", "no", 6, 12, "", "function error"),
    ("{% if no(s) %}{% endif %}", "no", 6, 11, "", "function error"),
    ("{{ [no(s)] }}", "no", 4, 9, "", "function error"), ("{{ s | no | fmt }}", "no", 3, 9, "", "function error"),
    ("{{ (s) | no | fmt }}", "no", 3, 11, "", "function error"), ("a{{ no(s) }}b", "no", 4, 6, "a", "function error"),
    ("{{ xs }}", "expression evaluated to unformattable type list", 3, 5, "", "format error"),
    ("{{ a | pair }}", "expression evaluated to unformattable type list", 3, 11, "", "format error"),
    ("{{ pair(a) }}", "expression evaluated to unformattable type list", 3, 10, "", "format error"),
    ("{{ ((a | pair)) }}", "expression evaluated to unformattable type list", 5, 13, "", "format error"),
    ("{{ a | stop }}", "stopped", 7, 11, "before", "format error"),
    ("{{ stop(a) }}", "stopped", 3, 7, "before", "format error"),
    ("x{{ (a | stop) }}", "stopped", 9, 13, "xbefore", "format error"),
    ("{{ xs | fmt }}", "expression evaluated to unformattable type list", 8, 11, "<", "format error"),
    ("{{ fmt(m) }}", "expression evaluated to unformattable type map", 3, 6, "<", "format error"),
]


def refused():
    """Each thing that can be wrong with a call, and where it is marked."""
    more = {"context": CONTEXT, "callables": OWN, "templates": {"t": ""}}
    listed = [fails(*it, **more) for it in REFUSED]
    listed += [fails(source, reason, m, n, written, kind=kind, **more) for source, reason, m, n, written, kind in REFUSED_KINDS]
    for source, m, n in (("{{ a | mute }}", 7, 11), ("{{ mute(a) }}", 3, 7)):
        error = {"kind": "format error", "reason": None, "span": [m, n], "template": "page", "picture": "format error"}
        listed.append(row(source, CONTEXT, {"written": "", "error": error}, callables=OWN))
    return listed


def default_formatters():
    """Another default formatter: what is emitted without a name goes through it."""
    rows = [("{{ a }}", "<5>"), ("{{ n }}", "<>"), ("x{{ s }}y", "x<ab>y"), ("{{ a | double }}", "<10>"),
            ("{{ double(a) }}", "<10>"), ("{{ nothing() }}", "<>"), ("{{ a | fmt }}", "<5>"), ("{{ (s) }}", "<ab>"),
            ("{% if a %}{{ 1 }}{% endif %}", "<1>"), ('{% include "t" %}', "<5>")]
    more = {"callables": OWN, "default_formatter": "fmt", "templates": {"t": "{{ a }}"}}
    found = [gives(source, text, CONTEXT, **more) for source, text in rows]
    found += [fails("{{ xs }}", "expression evaluated to unformattable type list", 3, 5, "<", CONTEXT, "format error", **more),
              fails("{{ a | pair }}", "expression evaluated to unformattable type list", 3, 11, "<", CONTEXT, "format error",
                    **more),
              fails("x{{ s }}", "stopped", 4, 5, "xbefore", CONTEXT, "format error", callables=OWN, default_formatter="stop"),
              fails("{{ (a) }}", "stopped", 4, 5, "before", CONTEXT, "format error", callables=OWN, default_formatter="stop"),
              fails("{{ a | double }}", "stopped", 3, 13, "before", CONTEXT, "format error", callables=OWN,
                    default_formatter="stop"),
              gives("{{ a | fmt }}", "<5>", CONTEXT, callables=OWN, default_formatter="stop")]
    return found


# Calls of standard functions: what they give, what is wrong with a call, and what refuses, with its kind.
STANDARD = [
    ("{{ add(1, 2) }}", "3"), ("{{ 1 | add: 2 }}", "3"), ("{{ a | sub: 7 }}", "-2"), ("{{ div(7, -2) }}", "-3"),
    ("{{ neg(a) }}", "-5"), ("{{ s | upper }}", "AB"), ("{{ upper(s) | repeat: 2 }}", "ABAB"), ("{{ length(s) }}", "2"),
    ("{{ length(xs) }}", "2"),
    ("{{ xs | reverse | first }}", "2"), ('{{ names | join: ", " }}', "x, y"),
    ('{{ join(keys({"b": 1, "a": 2}), "-") }}', "a-b"), ('{{ get(m, "k", 0) }}', "1"), ('{{ get(m, "z", 0) }}', "0"),
    ("{% if eq(a, 5) %}y{% endif %}", "y"), ('{% if eq(1, "1") %}y{% else %}n{% endif %}', "n"),
    ("{% if and(a, not_here?.b) %}y{% endif %}", None), ("{% if and(a, m?.zz) %}y{% else %}n{% endif %}", "n"),
    ('{{ default(m?.zz, "none") }}', "none"), ('{{ m?.zz | default: "none" }}', "none"),
    ("{% for x in xs | reverse %}{{ x }}{% endfor %}", "21"), ("{{ choose(yes, 1, 2) }}", "1"),
    ("{% with xs | length as n %}{{ n }}{% endwith %}", "2"), ("{{ first([]) }}", ""),
    ("{% if eq([1, [2]], [1, [2]]) %}y{% endif %}", "y"), ('{% if eq({"a": 1}, {"a": 1}) %}y{% endif %}', "y"),
]
STANDARD_WRONG = [
    ("{{ add(1) }}", "function expects 2 arguments, 1 provided", 3, 6),
    ("{% if add(1) %}{% endif %}", "function expects 2 arguments, 1 provided", 6, 12),
    ("{{ 1 | upper }}", "function `upper` expects &str argument, found integer", 3, 4),
    ('{{ add("a", "b") }}', "function `add` expects i64 argument, found string", 7, 10),
    ('{{ add(1, ("b")) }}', "function `add` expects i64 argument, found string", 11, 14),
    ("{{ repeat(s, -1) }}", "function `repeat` expects usize argument, but `-1` is out of range", 13, 15),
    ("{{ s | repeat: s }}", "function `repeat` expects usize argument, found string", 15, 16),
    ("{{ first(m) }}", "function `first` expects list argument, found map", 9, 10),
    ("{{ keys(xs) }}", "function `keys` expects map argument, found list", 8, 10),
    ("{{ nope(a) }}", "unknown formatter or function", 3, 7), ("{{ [nope(a)] }}", "unknown function", 4, 8),
    ("{{ upper(zz) }}", "not found in this scope", 9, 11), ("{{ upper(s, zz) }}", "not found in this scope", 12, 14),
    ("{{ upper() }}", "function expects 1 arguments, 0 provided", 3, 8),
    ("{{ a | upper | zz }}", "function `upper` expects &str argument, found integer", 3, 4),
]
STANDARD_KINDS = [("{{ div(1, 0) }}", "division by zero", 3, 6, "function error"),
         ("{% if div(1, 0) %}{% endif %}", "division by zero", 6, 15, "function error"),
         ("{{ 1 | div: 0 }}", "division by zero", 7, 10, "function error"),
         ("{{ add(9223372036854775807, 1) }}", "integer overflow", 3, 6, "function error"),
         ("{{ neg(-9223372036854775808) }}", "integer overflow", 3, 6, "function error"),
         ("{{ length(a) }}", "integer has no length", 3, 9, "function error"),
         ('{{ mixed | join: "" }}', "cannot join integer", 11, 15, "function error"),
         ("{{ [length(a)] }}", "integer has no length", 4, 13, "function error"),
         ("{{ xs | reverse }}", "expression evaluated to unformattable type list", 3, 15, "format error"),
         ("{{ reverse(xs) }}", "expression evaluated to unformattable type list", 3, 14, "format error"),
         ("{{ (keys(m)) }}", "expression evaluated to unformattable type list", 4, 11, "format error"),
         ("{{ a | length | add: 1 }}", "integer has no length", 3, 13, "function error")]


def standard():
    """Calls of standard functions: what engines with a library can run."""
    context = CONTEXT | {"names": ["x", "y"], "mixed": ["x", 1], "deep": {"k": [1]}}
    found = [gives(source, text, context, standard=True) for source, text in STANDARD]
    found += [fails(*it, context=context, standard=True) for it in STANDARD_WRONG]
    return found + [fails(*it[:4], kind=it[4], context=context, standard=True) for it in STANDARD_KINDS]


def escaped():
    """A default formatter that escapes, and `verbatim`, which does not."""
    context = {"t": "<b>\"'&", "n": 5, "xs": [1], "m": {"a": "<"}}
    good = [("{{ t }}", "&lt;b&gt;&quot;&#39;&amp;"), ("{{ t | verbatim }}", "<b>\"'&"), ("{{ verbatim(t) }}", "<b>\"'&"),
            ("{{ (t | verbatim) }}", "<b>\"'&"), ("<i>{{ n }}</i>", "<i>5</i>"), ('{{ "<" }}', "&lt;"),
            ("{{ m.a }}{{ m.a | verbatim }}", "&lt;<"), ("{{ m?.z }}", ""),
            ("{{ true }}", "true"), ("{{ m?.z | verbatim }}", ""), ('{% include "p" %}', "&lt;")]
    more = {"escape": "html", "templates": {"p": "{{ m.a }}"}}
    found = [gives(source, text, context, **more) for source, text in good]
    bad = [("{% if t | verbatim %}{% endif %}", "expected function, found formatter", 10, 18),
           ("{{ [verbatim(t)] }}", "expected function, found formatter", 4, 12),
           ("{{ t | verbatim: 1 }}", "formatter expects 1 argument, 2 provided", 7, 15),
           ("{{ verbatim() }}", "formatter expects 1 argument, 0 provided", 3, 11),
           ("{{ t | zz }}", "unknown formatter or function", 7, 9), ("{{ zz | verbatim }}", "not found in this scope", 3, 5),
           ("{{ t | verbatim | verbatim }}", "expected function, found formatter", 7, 15),
           ("{% for x in verbatim(t) %}{% endfor %}", "expected function, found formatter", 12, 20)]
    found += [fails(*it, context=context, **more) for it in bad]
    kinds = [("{{ xs }}", "expression evaluated to unformattable type list", 3, 5, "format error"),
             ("{{ xs | verbatim }}", "expression evaluated to unformattable type list", 8, 16, "format error"),
             ("{{ verbatim(m) }}", "expression evaluated to unformattable type map", 3, 11, "format error"),
             ("a{{ (m) }}", None, 0, 0, "")]
    found += [fails(*it[:4], kind=it[4], context=context, **more) for it in kinds]
    return found


def unknown():
    """Names that nothing has, in each place of an expression."""
    found = []
    places = [("{{ ", " }}", True), ("{% if ", " %}{% endif %}", False), ("{% with ", " as x %}{% endwith %}", False),
              ("{{ [", "] }}", False), ("{% for x in ", " %}{% endfor %}", False)]
    for (before, behind, emitted), call in itertools.product(places, ("f()", "f(1)", "f(1, 2)")):
        reason = "unknown formatter or function" if emitted else "unknown function"
        found.append(fails(before + call + behind, reason, len(before), len(before) + 1))
    for before, behind, emitted in places[:3] + places[4:]:
        reason = "unknown formatter or function" if emitted else "unknown function"
        found += [fails(before + "1 | f" + behind, reason, len(before) + 4, len(before) + 5),
                  fails(before + "1 | f: 2" + behind, reason, len(before) + 4, len(before) + 5)]
    return found


def rows():
    """All of them."""
    return given() + refused() + default_formatters() + standard() + escaped() + unknown()
