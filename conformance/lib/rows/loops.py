"""Loops: what they go over, what their names are, their other branch."""
import itertools

from . import fails, gives, row, wrong

CONTEXT = {"xs": ["a", "b"], "m": {"k": 1, "j": 2}, "one": [7], "none": [], "bare": {}, "x": "outer", "n": None, "word": "ab",
           "five": 5, "yes": True}


def texts():
    """What a loop gives."""
    rows = [
        ("{% for x in xs %}{{ x }}{% endfor %}", "ab"), ("{% for x in xs %}{{ x }}{% endfor %}{{ x }}", "abouter"),
        ("{% for k, v in m %}{{ k }}{{ v }}{% endfor %}", "j2k1"),
        ("{% for x in none %}{{ x }}{% endfor %}.", "."), ("{% for k, v in bare %}{{ k }}{% endfor %}.", "."),
        ("{% for a, a in m %}{{ a }}{% endfor %}", "jk"),
        ("{% for x in [1, 2] %}{% for x in [3, 4] %}{{ x }}{% endfor %}{{ x }}{% endfor %}", "341342"),
        ("{% for x in [1, 2] %}{% for y in [3, 4] %}{{ loop.index }}{% endfor %}{{ loop.index }}{% endfor %}", "010011"),
        ("{% for loop in xs %}{{ loop.index }}{% endfor %}", "01"),
        ("{% for k, loop in m %}{{ loop.first }}{% endfor %}", "truefalse"), ("{% for x in (xs) %}{{ x }}{% endfor %}", "ab"),
        ("{% for x in ((xs)) %}{{ x }}{% endfor %}", "ab"),
        ("{% for x in [xs, one] %}{% for y in x %}{{ y }}{% endfor %};{% endfor %}", "ab;7;"),
        ("{% for x in one %}{{ loop.first }}{{ loop.last }}{% endfor %}", "truetrue"),
        ("{% for xs in xs %}{{ xs }}{% endfor %}", "ab"),
        ("{% for k, v in m %}{{ loop.index }}:{{ loop.first }}:{{ loop.last }};{% endfor %}", "0:true:false;1:false:true;"),
        ("{% for x in xs %}{% if loop.first %}[{% endif %}{{ x }}{% if loop.last %}]{% endif %}{% endfor %}", "[ab]"),
        ("{% for x in [n, n] %}<{{ x }}>{% endfor %}", "<><>"),
        ("{% for x in [[1], [2]] %}{{ x.0 }}{% endfor %}", "12"), ('{% for x in [{"a": 1}] %}{{ x?.b }}|{% endfor %}', "|"),
        ("{% for x in xs %}\n{{ x }}\n{% endfor %}", "\na\n\nb\n"),
        ('{% for k, v in {"b": [1], "a": [2]} %}{{ k }}{{ v.0 }}{% endfor %}', "a2b1"),
        ("{%for x in xs%}{{x}}{%endfor%}", "ab"), ("{% for é in xs %}{{ é }}{% endfor %}", "ab"),
        ("{% for k, v in m %}{% for v, k in m %}{{ k }}{{ v }}{% endfor %}{% endfor %}", "2j1k2j1k"),
        ("{% for x in xs %}{% with loop.index as i %}{% for y in xs %}{{ i }}{{ loop.index }} {% endfor %}{% endwith %}{% endfor %}",
         "00 01 10 11 "),
        ("{% for k, v in m %}{% if k %}{{ k }}{% endif %}{% endfor %}", "jk"),
        ("{% for x in xs %}{% with loop as l %}{{ l.index }}{{ l.last }}{% endwith %}{% endfor %}", "0false1true"),
    ]
    return [gives(source, text, CONTEXT) for source, text in rows]


def other_branches():
    """The `else` of a loop."""
    rows = [
        ("{% for x in none %}a{% else %}b{% endfor %}", "b"), ("{% for x in one %}a{% else %}b{% endfor %}", "a"),
        ("{% for x in xs %}a{% else %}b{% endfor %}", "aa"),
        ("{% for k, v in bare %}{% else %}e{% endfor %}", "e"), ("{% for k, v in m %}a{% else %}e{% endfor %}", "aa"),
        ("{% for x in none %}{% else %}{{ x }}{% endfor %}", "outer"),
        ("{% for x in [] %}{% else %}{% endfor %}", ""),
        ("{% for y in [7, 8] %}{% for x in [] %}{% else %}{{ loop.index }}{{ y }}{% endfor %}{% endfor %}", "0718"),
        ("{% for x in none %}{% else %}{% for x in none %}{% else %}in{% endfor %}{% endfor %}", "in"),
        ("{% for x in none %}{% else %}{% if 1 %}a{% else %}b{% endif %}{% endfor %}", "a"),
        ("{% if 1 %}{% for x in none %}{% else %}a{% endfor %}{% else %}b{% endif %}", "a"),
        ("{% for x in none -%} a {%- else -%} b {%- endfor %}", "b"),
        ("{% for x in one %}{% for y in none %}{% else %}{{ x }}{% endfor %}{% else %}b{% endfor %}", "7"),
        ("{% for x in none %}{{ nobody }}{% else %}e{% endfor %}", "e"),
        ("{% for x in one %}{% else %}{{ nobody }}{% endfor %}.", "."),
        ("{% for x in none %}{% else %}{% with 1 as x %}{{ x }}{% endwith %}{{ x }}{% endfor %}", "1outer"),
    ]
    found = [gives(source, text, CONTEXT) for source, text in rows]
    return found + [
        fails("{% for x in {} %}{% else %}e{% endfor %}", "cannot unpack map item into one variable", 7, 8, context=CONTEXT),
        fails("{% for k, v in [] %}{% else %}e{% endfor %}", "cannot unpack list item into two variables", 7, 11,
              context=CONTEXT),
        fails("{% for x in 0 %}{% else %}e{% endfor %}", "expected iterable, but expression evaluated to integer", 12, 13,
              context=CONTEXT),
        fails("{% for x in n %}{% else %}e{% endfor %}", "expected iterable, but expression evaluated to none", 12, 13,
              context=CONTEXT),
        fails("{% for y in none %}{% else %}{{ y }}{% endfor %}", "not found in this scope", 32, 33, context=CONTEXT),
        fails("{% for y in none %}{% else %}{{ loop }}{% endfor %}", "not found in this scope", 32, 36, context=CONTEXT),
        wrong("{% for x in [] %}{% else %}{% else %}{% endfor %}", "unexpected `else` block", 27, 37),
        wrong("{% for x in [] %}{% else if 1 %}{% endfor %}", "unexpected `else if` block", 17, 32),
        wrong("{% for x in [] %}{% else %}{% endif %}", "unexpected `endif` block", 27, 38),
        wrong("{% for x in [] %}{% else %}", "unclosed `for` block", 0, 17)]


def wrong_items():
    """What has no items, and items that the names do not fit: each kind of value, by a name and written out."""
    found = []
    values = [("n", "none"), ("yes", "bool"), ("five", "integer"), ("word", "string"), ("true", "bool"), ("-5", "integer"),
              ('"ab"', "string"), ("(five)", "integer"), ("m.k", "integer"),
              ("((word))", "string"), ("x?.zz", None), ("?.zz", "none"), ("[1].0", None)]
    for (text, kind), names in itertools.product(values, ("y", "k, v")):
        at = len(f"{{% for {names} in ")
        source = f"a{{% for {names} in {text} %}}b{{% endfor %}}"
        if kind is None:
            found.append(row(source, CONTEXT))
            continue
        found.append(fails(source, f"expected iterable, but expression evaluated to {kind}", at + 1, at + 1 + len(text), "a",
                           CONTEXT))
    for text in ("xs", "[]", "[1]", "(xs)"):
        found.append(fails(f"{{% for k, v in {text} %}}{{% endfor %}}", "cannot unpack list item into two variables", 7, 11,
                           context=CONTEXT))
        found.append(fails(f"{{% for first , second in {text} %}}{{% endfor %}}", "cannot unpack list item into two variables",
                           7, 21, context=CONTEXT))
    for text in ("m", "{}", '{"a": 1}', "bare"):
        found.append(fails(f"{{% for key in {text} %}}{{% endfor %}}", "cannot unpack map item into one variable", 7, 10,
                           context=CONTEXT))
    found += [fails("{% for x in xs %}{{ x }}{{ y }}{% endfor %}", "not found in this scope", 27, 28, "a", CONTEXT),
              fails("{% for x in zz %}{% endfor %}", "not found in this scope", 12, 14, context=CONTEXT),
              fails("{% for x in xs %}{{ x.a }}{% endfor %}", "string does not support key-based access", 21, 23,
                    context=CONTEXT),
              fails('{% for x in [{"a": 1}, {}] %}{{ x.a }}{% endfor %}', "not found in map", 33, 35, "1", CONTEXT),
              fails("{% for x in xs %}{% endfor %}{{ loop }}", "not found in this scope", 32, 36, context=CONTEXT)]
    return found


def shadows():
    """Of several bindings of one name the innermost answers: each order of three of them."""
    binders = {"with": ("{% with 1 as x %}", "{% endwith %}", "1"), "list": ("{% for x in [2] %}", "{% endfor %}", "2"),
               "key": ('{% for x, y in {"3": 4} %}', "{% endfor %}", "3"),
               "value": ('{% for y, x in {"4": 5} %}', "{% endfor %}", "5")}
    found = []
    for length in (1, 2, 3):
        for names in itertools.product(binders, repeat=length):
            begins, ends, written = zip(*(binders[name] for name in names))
            source = "".join(begins) + "".join("{{ x }}" + end for end in reversed(ends)) + "{{ x }}"
            found.append(gives(source, "".join(reversed(written)) + "outer", CONTEXT))
    return found


def rows():
    """All of them."""
    return texts() + other_branches() + wrong_items() + shadows()
