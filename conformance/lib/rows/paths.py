"""What a path means: each kind of value with each kind of member, in the context, in a `with`, in a loop and in its state."""
from . import fails, gives

# A value of each kind, and what messages call it.
KINDS = [("null", None, "none"), ("yes", True, "bool"), ("five", 5, "integer"), ("word", "ab", "string"),
         ("xs", [7, "z"], "list"), ("m", {"k": 8, "0": 9}, "map")]
VALUES = {name: value for name, value, _ in KINDS}
WRITTEN = {"null": "", "yes": "true", "five": "5", "word": "ab"}


def member_row(source, value, kind, op, access, span, context):
    """A row with one member of a value, which is at a span."""
    by_index = access.isdigit()
    if not (isinstance(value, dict) and not by_index or isinstance(value, list) and by_index):
        access_word = "integer-based" if by_index else "key-based"
        return fails(source, f"{kind} does not support {access_word} access", *span, context=context)
    held = value.get(access) if isinstance(value, dict) else dict(enumerate(value)).get(int(access))
    if held is None and op == ".":
        reason = "not found in map" if isinstance(value, dict) else "index out of bounds, the length is 2"
        return fails(source, reason, *span, context=context)
    return gives(source, "" if held is None else str(held), context)


def member_rows(first, before, behind, context):
    """Each kind of value under its name, with each member, with a template around it."""
    found = []
    for name, value, kind in KINDS:
        path, at = first(name), len(before) + 3
        for op in (".", "?."):
            for access in ("k", "zz", "0", "1", "5"):
                span = (at + len(path), at + len(path + op + access))
                source = f"{before}{{{{ {path}{op}{access} }}}}{behind}"
                found.append(member_row(source, value, kind, op, access, span, context))
    return found


def members():
    """Members of values of the context, of a `with`, of a loop's variable and of a map that holds them."""
    rows = member_rows(lambda name: name, "", "", VALUES)
    rows += member_rows(lambda name: "o." + name, "", "", {"o": VALUES})
    for place, (name, value, kind) in enumerate(KINDS):
        rows += one_kind(place, f"{{% with {name} as w %}}", "{% endwith %}", VALUES | {"w": 1})
        rows += one_kind(place, "{% for w in items %}", "{% endfor %}", {"items": [value], "w": {"k": "outer", "zz": 1}})
        rows += one_kind(place, "{% for key, w in items %}", "{% endfor %}", {"items": {"a": value}, "w": [1, 2, 3]})
    return rows


def one_kind(place, before, behind, context):
    """The rows of one kind of value, bound to `w`."""
    whole = member_rows(lambda name: "w", before, behind, context)
    size = len(whole) // len(KINDS)
    return whole[place * size:(place + 1) * size]


def emitted():
    """Values of each kind, written."""
    rows = [gives(f"a{{{{ {name} }}}}b", f"a{text}b", VALUES) for name, text in WRITTEN.items()]
    for name in ("xs", "m"):
        reason = f"expression evaluated to unformattable type {'list' if name == 'xs' else 'map'}"
        rows.append(fails(f"a{{{{ {name} }}}}b", reason, 4, 4 + len(name), "a", VALUES, "format error"))
        rows.append(fails(f"a{{{{ ( {name} ) }}}}b", reason, 6, 6 + len(name), "a", VALUES, "format error"))
    rows.append(fails('{{ {"a": [1]} }}', "expression evaluated to unformattable type map", 3, 13, kind="format error"))
    rows.append(fails("{{ [] }}", "expression evaluated to unformattable type list", 3, 5, kind="format error"))
    return rows


def first_members():
    """What the first member finds: names, operators before it, indexes."""
    context = {"a": {"b": {"c": "deep"}}, "é": 1, "_x": 2, "a1": 3, "if_": 4, "loop": "L", "привіт": 5, "日本": 6}
    found = [("a.b.c", "deep"), (".a.b.c", "deep"), ("?.a.b.c", "deep"), ("a?.b?.c", "deep"), ("?.zz", ""), ("?.zz.b", ""),
             ("?.zz?.b.c", ""), ("?.zz.0", ""), ("a?.zz", ""),
             ("a?.zz.c", ""), ("a?.zz.0.d", ""), ("a.b?.zz", ""), ("é", "1"), ("_x", "2"), ("a1", "3"), ("if_", "4"),
             ("loop", "L"), ("привіт", "5"), ("日本", "6"),
             ("a . b . c", "deep"), ("a\n.b\t.c", "deep"), ("a ?. b.c", "deep"), (". a", None)]
    rows = [gives(f"{{{{ {path} }}}}", text, context) for path, text in found]
    missing = ["zz", ".zz", "zz.a", "zz?.a", "zz?.a?.b", "A", "iff", "_", "zz.0"]
    for path in missing:
        name = path.split("?.")[0] if "?." in path else "." * path.startswith(".") + path.strip(".").split(".")[0]
        rows.append(fails(f"{{{{ {path} }}}}", "not found in this scope", 3, 3 + len(name), context=context))
    for path, m, n in ((".0", 3, 5), ("?.0", 3, 6), (".0.a", 3, 5), ("?.0?.a", 3, 6)):
        rows.append(fails(f"{{{{ {path} }}}}", "not found in this scope", m, n, context=context))
    rows += [fails("{{ a.zz }}", "not found in map", 4, 7, context=context),
             fails("{{ a.b.zz.d }}", "not found in map", 6, 9, context=context),
             fails("{{ a .zz }}", "not found in map", 5, 8, context=context),
             fails("{{ a. zz }}", "not found in map", 4, 8, context=context),
             fails("{{ a\n.\nzz }}", "not found in map", 5, 9, context=context),
             fails("{{ a?.b.zz }}", "not found in map", 7, 10, context=context),
             fails("{{ é.k }}", "integer does not support key-based access", 5, 7, context=context)]
    return rows


def roots():
    """Contexts that are no map, after `include .. with`."""
    rows = []
    bodies = [(".0", "7"), ("?.0", "7"), ("?.5", ""), ("?.5.a", ""), (".1.k", "8"), ("?.1?.zz", "")]
    for path, text in bodies:
        rows.append(gives('{% include "t" with xs %}', text, {"xs": [7, {"k": 8}]}, templates={"t": f"{{{{ {path} }}}}"}))
    for path, m, n in ((".5", 3, 5), ("a", 3, 4), ("?.a", 3, 6), (".a.b", 3, 5)):
        rows.append(fails('{% include "t" with xs %}', "not found in this scope", m, n, context={"xs": [7]}, template="t",
                          templates={"t": f"{{{{ {path} }}}}"}))
    for value in ("5", '"s"', "true", "[]", "null"):
        for path, m, n in (("a", 3, 4), ("?.a", 3, 6), (".0", 3, 5), ("?.0", 3, 6)):
            case = dict(context={"null": None, "a": 1}, templates={"t": f"{{{{ {path} }}}}"})
            source = f'{{% include "t" with {value} %}}'
            if value == "[]" and path == "?.0":
                rows.append(gives(source, "", **case))
            else:
                rows.append(fails(source, "not found in this scope", m, n, template="t", **case))
    return rows


def states():
    """The state of a loop, and its variables, with members."""
    def loop(path, text):
        return gives(f"{{% for x in [1, 2] %}}{{{{ {path} }}}};{{% endfor %}}", text)

    def broken(path, reason, m, n):
        return fails(f"{{% for x in [1, 2] %}}{{{{ {path} }}}};{{% endfor %}}", reason, 24 + m, 24 + n)
    rows = [loop("loop.index", "0;1;"), loop("loop.first", "true;false;"), loop("loop.last", "false;true;"),
            loop("loop?.index", "0;1;"), loop(".loop.index", "0;1;"),
            loop("?.loop.index", "0;1;"), loop("loop?.zz", ";;"), loop(".x", "1;2;"), loop("?.x", "1;2;"),
            broken("loop.zz", "not found in map", 4, 7), broken("loop.0", "cannot index into map with integer", 4, 6),
            broken("loop?.0", "cannot index into map with integer", 4, 7),
            broken("loop.index.a", "cannot index into integer", 10, 12),
            broken("loop.first.a", "cannot index into bool", 10, 12), broken("loop.last?.a", "cannot index into bool", 9, 12),
            broken("loop?.zz.a", "cannot index into none", 8, 10), broken("loop?.zz?.a", "cannot index into none", 8, 11),
            broken("loop.index.0", "cannot index into integer", 10, 12),
            broken("loop.index.a.b", "cannot index into integer", 10, 12),
            broken("loop.index?.0", "cannot index into integer", 10, 13),
            fails("{% for x in [1] %}{{ loop }}{% endfor %}", "expression evaluated to unformattable type map", 21, 25,
                  kind="format error"),
            gives("{% for x in [5, 6] %}{% for k, v in loop %}{{ k }}={{ v }} {% endfor %}{% endfor %}",
                  "first=true index=0 last=false first=false index=1 last=true ")]
    keys = [("k", "a", None), ("k.x", "cannot index into string", (23, 25)), ("k?.x", "cannot index into string", (23, 26)),
            ("k.0", "cannot index into string", (23, 25)),
            ("k?.0", "cannot index into string", (23, 26)), ("k.x.y", "cannot index into string", (23, 25))]
    for path, text, span in keys:
        source = f"{{% for k, v in m %}}{{{{ {path} }}}}{{% endfor %}}"
        one = {"m": {"a": 1}}
        rows.append(gives(source, text, one) if span is None else fails(source, text, *span, context=one))
    return rows


def rows():
    """All of them."""
    return members() + emitted() + first_members() + roots() + states()
