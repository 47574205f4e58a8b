"""Each row of docs/SYNTAX.md: what each form gives, what is refused, what fails while a template is rendered."""
from . import fails, gives, wrong

USER = {"user": {"name": "John Smith"}, "name": "John", "a": True, "b": 0, "list": [4, 5], "items": ["x", "y"],
        "prices": {"b": 2, "a": 1}}
# The context and the callables of the rows that fail.
FAILING = {"context": {"m": {"k": 7}, "xs": [7]}, "callables": ["fmt", "double", "low", "no"]}


def forms():
    """What each form gives."""
    rows = [
        ("", ""), ("Hello", "Hello"), ("Hello {{ name }}!", "Hello John!"), ("{{ user.name }}", "John Smith"),
        ("{{ list.0 }}", "4"),
        ("{{ user?.name }}", "John Smith"), ("{{ user?.mail }}", ""), ("{{ ?.nobody.name }}", ""),
        ("{{ ?.user.name }}", "John Smith"),
        ('{{ "text" }}', "text"), ("{{ -1 }}", "-1"), ("{{ 0xff }}", "255"), ("{{ true }}", "true"), ("{{ false }}", "false"),
        ("{% if a %}yes{% endif %}", "yes"), ("{% if b %}yes{% endif %}", ""), ("a{# note #}b", "ab"),
        ("a  {{- 1 -}}  b", "a1b"), ("a  {%- if true %} b {% endif -%} c", "a b c"), ("a {#- note -#} b", "ab"),
        ("{{ 42 }}", "42"), ("{{ -7 }}", "-7"), ("{{ - 5 }}", "-5"), ("{{ +3 }}", "3"), ("{{ 1_000 }}", "1000"),
        ("{{ 0b101 }}", "5"), ("{{ 0o17 }}", "15"), ('{{ "line\\n" }}', "line\n"), ('{{ "a \\"b\\" \\\\ c" }}', 'a "b" \\ c'),
        ("{{ .name }}", "John"), ("{{ (name) }}", "John"), ("a{{ user?.x }}b", "ab"), ('{{ "<b>" }}', "<b>"),
        ("{% if not a %}x{% else %}y{% endif %}", "y"), ("{% if a %}x{% endif %}", "x"),
        ("{% if b %}x{% else if a %}y{% else %}z{% endif %}", "y"), ("{% if b %}x{% else if b %}y{% else %}z{% endif %}", "z"),
        ("{% for x in items %}{{ x }}{% endfor %}", "xy"),
        ("{% for k, v in prices %}{{ k }}: {{ v }};{% endfor %}", "a: 1;b: 2;"),
        ("{% for x in items %}{{ x }}{% else %}nothing{% endfor %}", "xy"),
        ("{% for x in [] %}{{ x }}{% else %}nothing{% endfor %}", "nothing"),
        ("{% with user.name as n %}{{ n }}{% endwith %}", "John Smith"), ("{{ 9223372036854775807 }}", "9223372036854775807"),
        ("{{ -9223372036854775808 }}", "-9223372036854775808"), ("{% for x in [1, 2,] %}{{ x }}{% endfor %}", "12"),
        ('{% for k, v in {"a": 1, "b": 2,} %}{{ k }}{{ v }}{% endfor %}', "a1b2"),
        ("{% for i in [1, 2] %}{{ i }}{% if not loop.last %},{% endif %}{% endfor %}", "1,2"),
        ("{% for i in [7, 8] %}{{ loop.index }}{{ loop.first }}{{ loop.last }} {% endfor %}", "0truefalse 1falsetrue "),
    ]
    more = {"templates": {"footer": "[{{ name }}]", "row": "<{{ k }}>"}}
    included = [('{% include "footer" %}', "[John]"), ('{% include "row" with {"k": 1} %}', "<1>")]
    return [gives(source, text, USER) for source, text in rows] + [
        gives(source, text, USER, **more) for source, text in included]


def refused():
    """What is refused, each reason."""
    ends = [
        ("{{ a", "expected end expression, found EOF", 4, 4), ("{{ [ {{", "unclosed begin expression", 0, 2),
        ("{# a }} #}", "unexpected end expression", 5, 7), ("{{ [ %}", "unexpected end block", 5, 7),
        ("{{ [1, }}", "unclosed open bracket", 3, 4), ('{{ {"a": {"b": 1}} }}', "unclosed open brace", 9, 10),
        ("{{ a ) }}", "unexpected close parenthesis", 5, 6), ("{{ a @ }}", "unexpected character", 5, 6),
        ('{{ "a', "undelimited string", 3, 5), ("{{ a b", "expected end expression, found identifier", 5, 6),
        ("{{ a. :", "expected identifier or index, found colon", 6, 7), ("{{ [ :", "expected expression, found colon", 5, 6),
        ("{% b", "expected keyword, found identifier", 3, 4), ("{{ 1 | :", "expected identifier, found colon", 7, 8),
        ("{{ [ if", "unexpected keyword `if`", 5, 7), ("{{ { b", "expected string, found identifier", 5, 6),
        ('{{ {"k" b', "expected colon, found identifier", 8, 9), ("{% with a b", "expected keyword, found identifier", 10, 11),
        ("{% with a in", "expected keyword `as`, found keyword `in`", 10, 12), ("{{ [1,", "expected token, found EOF", 6, 6),
        ("{##}", "expected raw template, found end comment", 2, 4), ("{#}", "expected end comment, found EOF", 3, 3),
        ("{{ 0b2 x }}", "invalid digit for base 2 literal", 5, 6),
        ("{{ 9223372036854775808 }}", "base 10 literal out of range for 64-bit integer", 3, 22),
        ("{{ 5-}}", "invalid float literal", 3, 5),
        ("{{ a.18446744073709551616 }}", "base 10 literal out of range for unsigned 64-bit integer", 5, 25),
        ('{{ "\\q" }}', "unknown escape character", 5, 6), ("{% endif %}", "unexpected `endif` block", 0, 11),
        ("{% for x in [] %}{% else %}{% else %}{% endfor %}", "unexpected `else` block", 27, 37),
        ("{% for x in [] %}{% else if 1 %}{% endfor %}", "unexpected `else if` block", 17, 32),
        ("{% if a %}", "unclosed `if` block", 0, 10), ("{{ (a) 1 }}", "expected end expression, found index", 7, 8),
        ("{{ a.b(1) }}", "expected end expression, found open parenthesis", 6, 7), ("{{ 1.5 }}", "invalid float literal", 3, 6),
        ("{{ 1-2 }}", "invalid float literal", 3, 6), ("{{\u00a0a }}", "unexpected character", 2, 4),
        ("Hello {{ name\n", "expected end expression, found EOF", 14, 14), ("{{ [1, 2 }}", "unclosed open bracket", 3, 4),
        ("a }} b", "unexpected end expression", 2, 4), ("{{ -0b2 }}", "invalid digit for base 2 literal", 6, 7),
        ('{{ a b "c', "expected end expression, found identifier", 5, 6), ('{{ "a\\q" }}', "unknown escape character", 6, 7),
        ("{% if paid %}", "unclosed `if` block", 0, 13), ("a\nb\n{% endif %}", "unexpected `endif` block", 4, 15),
    ]
    return [wrong(*it) for it in ends]


def failing():
    """What fails while a template is rendered, each reason."""
    rows = [
        ("{{ b }}", "not found in this scope", 3, 4), ("{{ ?.0 }}", "not found in this scope", 3, 6),
        ("{{ m.x }}", "not found in map", 4, 6), ("{{ xs.2 }}", "index out of bounds, the length is 1", 5, 7),
        ("{{ m.0 }}", "map does not support integer-based access", 4, 6),
        ("{{ xs?.a }}", "list does not support key-based access", 5, 8),
        ("{% for k, v in m %}{{ k.x }}{% endfor %}", "cannot index into string", 23, 25),
        ("{% for x in xs %}{{ loop?.0 }}{% endfor %}", "cannot index into map with integer", 24, 27),
        ("{% for x in xs %}{{ loop.index.b }}{% endfor %}", "cannot index into integer", 30, 32),
        ("{% for x in (1) %}{% endfor %}", "expected iterable, but expression evaluated to integer", 12, 15),
        ("{% for a, b in [] %}{% endfor %}", "cannot unpack list item into two variables", 7, 11),
        ("{% for a in {} %}{% endfor %}", "cannot unpack map item into one variable", 7, 8),
        ("{{ f(1) }}", "unknown formatter or function", 3, 4), ("{{ [zz(1)] }}", "unknown function", 4, 6),
        ("{% if 1 | fmt %}{% endif %}", "expected function, found formatter", 10, 13),
        ("{{ 1 | fmt: 2 }}", "formatter expects 1 argument, 2 provided", 7, 10),
        ("{{ double() }}", "function expects 1 arguments, 0 provided", 3, 9),
        ("{% if double() %}{% endif %}", "function expects 1 arguments, 0 provided", 6, 14),
        ('{{ "x" | double }}', "function `double` expects i64 argument, found string", 3, 6),
        ("{{ 300 | low }}", "function `low` expects u8 argument, but `300` is out of range", 3, 6),
        ('{% include "x" %}', "unknown template", 11, 14),
    ]
    kinds = [('{{ "a" | no }}', "no", 9, 11, "function error"), ('{% if "a" | no %}{% endif %}', "no", 6, 14, "function error"),
             ("{{ xs }}", "expression evaluated to unformattable type list", 3, 5, "format error"),
             ("{{ m }}", "expression evaluated to unformattable type map", 3, 4, "format error")]
    found = [fails(*it, **FAILING) for it in rows] + [fails(*it[:4], kind=it[4], **FAILING) for it in kinds]
    deep = {"source": 'x{% include "s" %}', "templates": {"s": 'x{% include "s" %}'}}
    reason = "reached maximum include depth (64)"
    wanted = {"kind": "render error", "reason": reason, "template": None, "span": None}
    too_deep = gives(deep["source"], "", templates=deep["templates"])._replace(wanted={"written": "x" * 64, "error": wanted})
    return found + [too_deep]


def rows():
    """All of them."""
    return forms() + refused() + failing()
