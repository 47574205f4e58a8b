"""Blocks: which tags close which block, each row of tags of a few, and what branches and names mean."""
import itertools

from . import fails, gives, row, wrong

# One tag of each kind, and what it opens or closes.
TAGS = {
    "if": "{% if a %}", "else if": "{% else if b %}", "else": "{% else %}", "endif": "{% endif %}",
    "for": "{% for x in xs %}", "endfor": "{% endfor %}", "with": "{% with a as y %}", "endwith": "{% endwith %}",
}
CONTEXT = {"a": 1, "b": 0, "xs": [1, 2]}


def fault_by_hand(words):
    """The reason and which tag is marked, by a list of open blocks; none if each tag fits and all are closed."""
    opened = []
    for place, word in enumerate(words):
        if word in ("if", "for", "with"):
            opened.append([word, False, place])
            continue
        block, has_else, _ = opened[-1] if opened else (None, False, None)
        takes = word == f"end{block}" or word == "else" and block in ("if", "for") and not has_else
        takes = takes or word == "else if" and block == "if" and not has_else
        if not takes:
            return f"unexpected `{word}` block", place
        if word == "else":
            opened[-1][1] = True
        elif word != "else if":
            opened.pop()
    return (f"unclosed `{opened[0][0]}` block", opened[0][2]) if opened else None


def sequences():
    """Each row of one, two and three tags, with texts between; and those of four that are whole."""
    found = []
    for length in (1, 2, 3, 4):
        for words in itertools.product(TAGS, repeat=length):
            fault = fault_by_hand(words)
            if length == 4 and fault:
                continue
            texts = [TAGS[word] + str(place) for place, word in enumerate(words)]
            source = "".join(texts)
            if fault is None:
                found.append(row(source, CONTEXT))
            else:
                begin = sum(map(len, texts[:fault[1]]))
                found.append(wrong(source, fault[0], begin, begin + len(TAGS[words[fault[1]]])))
    return found


def inside():
    """A fault inside a tag comes before one of blocks, and blocks that are not closed come last."""
    rows = [
        ("{% else x %}", "expected end block, found identifier", 8, 9),
        ("{% else if 1 %}", "unexpected `else if` block", 0, 15),
        ("{% if 1 %}{{ a", "expected end expression, found EOF", 14, 14),
        ("{% with 1 as a %}{% if 1 %}", "unclosed `with` block", 0, 17),
        ("{% if 1 %}{% endfor %}", "unexpected `endfor` block", 10, 22), ("{% if 1 %}{{ @ }}", "unexpected character", 13, 14),
        ("{% if 1 %}{% else %}{% else if 1 %}", "unexpected `else if` block", 20, 35),
        ("é{% endif %}", "unexpected `endif` block", 2, 13),
        ("{%- endif -%}", "unexpected `endif` block", 0, 13), ("\n\n{%endif%}", "unexpected `endif` block", 2, 11),
        ("{%- if 1 -%}", "unclosed `if` block", 0, 12), ("x{% for a in b %}y", "unclosed `for` block", 1, 17),
        ("{% for a, b in c %}{% if 1 %}{% endif %}", "unclosed `for` block", 0, 19),
        ("{% if 1 %}{% endif %}{% endif %}", "unexpected `endif` block", 21, 32),
        ("{% if 1 %}{# {% endif %} #}", "unclosed begin comment", 10, 12),
        ("{% include \"t\" %}{% endinclude", "expected keyword, found identifier", 20, 30),
        ("{% for x in [] %}{% endif %}", "unexpected `endif` block", 17, 28),
        ("{% if not not a %}", "unexpected keyword `not`", 10, 13),
        ("{% elif a %}", "expected keyword, found identifier", 3, 7), ("{% end %}", "expected keyword, found identifier", 3, 6),
        ("{% if a %}{% end if %}", "expected keyword, found identifier", 13, 16),
        ("{% %}", "expected keyword, found end block", 3, 5), ("{%%}", "expected keyword, found end block", 2, 4),
        ("{{}}", "expected expression, found end expression", 2, 4),
        ("{{ }}", "expected expression, found end expression", 3, 5),
        ("{% for loop.x in a %}", "expected keyword, found member access operator", 11, 12),
        ("{% with a as b.c %}", "expected end block, found member access operator", 14, 15),
        ("{% include name %}", "expected string, found identifier", 11, 15),
        ("{% raw %}", "expected keyword, found identifier", 3, 6),
    ]
    return [wrong(*it) for it in rows]


def conditions():
    """Branches by each kind of value, turned round or not, in chains."""
    values = {"none": None, "no": False, "zero": 0, "empty": "", "nil": [], "bare": {}, "yes": True, "one": 1, "low": -1,
              "text": "0", "list": [0], "map": {"a": None}}
    rows = []
    for place, name in enumerate(values):
        truth = place > 5
        rows.append(gives(f"{{% if {name} %}}t{{% else %}}f{{% endif %}}", "t" if truth else "f", values))
        rows.append(gives(f"{{% if not {name} %}}t{{% endif %}}", "" if truth else "t", values))
        rows.append(gives(f"{{% if no %}}1{{% else if {name} %}}2{{% else if not {name} %}}3{{% else %}}4{{% endif %}}",
                          "2" if truth else "3", values))
        rows.append(gives(f"{{% if (({name})) %}}t{{% else %}}f{{% endif %}}", "t" if truth else "f", values))
    rows += [
        gives("{% if a?.b %}x{% else %}y{% endif %}", "y", {"a": {}}), gives("{% if ?.a %}x{% else %}y{% endif %}", "y"),
        gives("{% if 1 %}{% if 0 %}a{% else %}b{% endif %}c{% else %}d{% endif %}e", "bce"),
        gives("{% if 0 %}{{ nobody }}{% endif %}z", "z"),
        gives("{% if 0 %}{{ f(1) }}{% else if 1 %}y{% else if g() %}z{% endif %}", "y"),
        gives("{% if 0 %}{% include \"zz\" %}{% endif %}", ""),
        gives("{% if true %}a{% endif %}{% if false %}b{% endif %}", "a"),
        gives("{% if not true %}a{% else if not false %}b{% endif %}", "b"),
        fails("a{% if b %}c{% endif %}", "not found in this scope", 7, 8, "a"),
        fails("a{% if 0 %}{% else if b %}c{% endif %}", "not found in this scope", 22, 23, "a"),
        fails("{% if not b.c %}{% endif %}", "not found in this scope", 10, 11),
        fails("{% if 1 %}x{{ b }}{% endif %}", "not found in this scope", 14, 15, "x"),
    ]
    return rows


def names():
    """What `with` binds, where it is seen, and what it hides."""
    both = {"a": {"b": 1}, "n": "root", "xs": [1, 2]}
    rows = [
        ("{% with a.b as n %}{{ n }}{% endwith %}{{ n }}", "1root"), ("{% with n as n %}{{ n }}{% endwith %}", "root"),
        ("{% with 1 as n %}{% with 2 as n %}{{ n }}{% endwith %}{{ n }}{% endwith %}{{ n }}", "21root"),
        ("{% with 1 as x %}{% with x as y %}{{ x }}{{ y }}{% endwith %}{% endwith %}", "11"),
        ("{% with [1, 2] as l %}{{ l.1 }}{% endwith %}", "2"),
        ('{% with {"k": n} as m %}{{ m.k }}{% endwith %}', "root"), ("{% with ?.zz as x %}a{{ x }}b{% endwith %}", "ab"),
        ("{% with a?.zz as x %}{% if x %}1{% else %}0{% endif %}{% endwith %}", "0"),
        ("{% for x in xs %}{% with x as n %}{{ n }}{% endwith %}{% endfor %}{{ n }}", "12root"),
        ("{% with 1 as loop %}{{ loop }}{% endwith %}", "1"),
        ("{% for x in xs %}{% with x as loop %}{{ loop }}{% endwith %}{{ loop.index }}{% endfor %}", "1021"),
        ("{% with 5 as xs %}{{ xs }}{% endwith %}{% for x in xs %}{{ x }}{% endfor %}", "512"),
        ("{% with true as é %}{{ é }}{% endwith %}", "true"), ("{% with a as n %}{{ n.b }}{{ n?.zz }}{% endwith %}", "1"),
        ("{% with 1 as _ %}{{ _ }}{% endwith %}", "1"),
        ("{% with (n) as x %}{{ x }}{% endwith %}", "root"), ('{% with "" as n %}[{{ n }}]{% endwith %}', "[]"),
    ]
    found = [gives(source, text, both) for source, text in rows]
    found += [fails("{% with 1 as x %}{% endwith %}{{ x }}", "not found in this scope", 33, 34, context=both),
              fails("a{% with zz as x %}b{% endwith %}", "not found in this scope", 9, 11, "a", context=both),
              fails("{% with x as x %}{{ x }}{% endwith %}", "not found in this scope", 8, 9, context=both),
              fails("{% with 1 as n %}{{ n.b }}{% endwith %}", "integer does not support key-based access", 21, 23,
                    context=both),
              fails("{% with a as n %}{{ n.zz }}{% endwith %}", "not found in map", 21, 24, context=both),
              fails("{% with a as n %}x{{ n }}{% endwith %}", "expression evaluated to unformattable type map", 21, 22, "x",
                    context=both, kind="format error")]
    return found


def rows():
    """All of them."""
    return sequences() + inside() + conditions() + names()
