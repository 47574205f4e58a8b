"""Numbers, strings, indexes, truth values, lists and maps that are written out, and what is wrong with them."""
from . import fails, gives, row, wrong

RANGE = "base {} literal out of range for 64-bit integer"
DIGIT = "invalid digit for base {} literal"
NUMBERS = [
    ("0", 0), ("00", 0), ("007", 7), ("0b", 0), ("0o", 0), ("0x", 0), ("0x_", 0), ("0b0", 0), ("0b1111", 15), ("0b_1_0_", 2),
    ("0o777", 511), ("0xFf", 255), ("0xdead_beef", 3735928559), ("1_", 1), ("1__0", 10), ("0_1", 1),
    ("0x7fffffffffffffff", 2**63 - 1),
    ("0b" + "1" * 63, 2**63 - 1), ("0o777777777777777777777", 2**63 - 1), ("9_223_372_036_854_775_807", 2**63 - 1),
    ("0" * 30 + "5", 5),
]
# A number, the reason, and the span in it.
WRONG_NUMBERS = [
    ("0b2", DIGIT.format(2), 2, 3), ("0b102", DIGIT.format(2), 4, 5), ("0b_12", DIGIT.format(2), 4, 5),
    ("0o8", DIGIT.format(8), 2, 3),
    ("0o17_9", DIGIT.format(8), 5, 6), ("0xg", DIGIT.format(16), 2, 3), ("0x1z", DIGIT.format(16), 3, 4),
    ("1a", DIGIT.format(10), 1, 2),
    ("0a", DIGIT.format(10), 1, 2), ("0B1", DIGIT.format(10), 1, 2), ("0X1", DIGIT.format(10), 1, 2),
    ("12e3", DIGIT.format(10), 2, 3),
    ("1z99999999999999999999", DIGIT.format(10), 1, 2), ("99999999999999999999z", RANGE.format(10), 0, 21),
    ("9223372036854775808", RANGE.format(10), 0, 19), ("0x8000000000000000", RANGE.format(16), 0, 18),
    ("0b1" + "0" * 63, RANGE.format(2), 0, 66), ("0o1000000000000000000000", RANGE.format(8), 0, 24),
    ("1.5", "invalid float literal", 0, 3), ("1.", "invalid float literal", 0, 2), ("1.a", "invalid float literal", 0, 3),
    ("1e+3", "invalid float literal", 0, 4), ("1-", "invalid float literal", 0, 2), ("1+1", "invalid float literal", 0, 3),
    ("0b2.1", "invalid float literal", 0, 5), ("99999999999999999999.", "invalid float literal", 0, 21),
    ("1--1", "invalid float literal", 0, 4),
]
STRINGS = [
    ("", ""), ("a", "a"), (" ", " "), ("\\n", "\n"), ("\\r", "\r"), ("\\t", "\t"), ("\\\\", "\\"), ('\\"', '"'),
    ("\\\\n", "\\n"),
    ("\\\\\\n", "\\\n"), ("a\\tb\\tc", "a\tb\tc"), ("}}", "}}"), ("{{ x }}", "{{ x }}"), ("%} #}", "%} #}"), ("é", "é"),
    ("日本", "日本"), ("\t", "\t"),
    ("'", "'"), ("\u2028", "\u2028"), ("\\\\\\\\", "\\\\"), ("{# a #}", "{# a #}"), ("-}}", "-}}"),
]
WRONG_STRINGS = [
    ('"\\q"', "unknown escape character", 2, 3), ('"a\\x"', "unknown escape character", 3, 4),
    ('"\\q\\z"', "unknown escape character", 2, 3),
    ('"\\n\\0"', "unknown escape character", 4, 5), ('"\\é"', "unknown escape character", 2, 4),
    ('"\\日"', "unknown escape character", 2, 5),
    ('"é\\q"', "unknown escape character", 4, 5), ('"\\ "', "unknown escape character", 2, 3),
    ('"\\\'"', "unknown escape character", 2, 3),
    ('"\\N"', "unknown escape character", 2, 3), ('"\\}}"', "unknown escape character", 2, 3),
    ('"\\\t"', "unknown escape character", 2, 3),
]
# Strings that do not end on their line, and how long what is marked is.
OPEN_STRINGS = [('"', 1), ('"a', 2), ('"a }}', 5), ('"a\\', 3), ('"a\\"', 4), ('"a\\"b }}', 8), ('"a\nb"', 2), ('"a\rb"', 2),
                ('"a\\\nb"', 3), ('"\\\\\\"', 5),
                ('"é', 3), ('"a\r\n"', 2), ('"\n"', 1), ('"日本', 7), ('"a\\\r"', 3)]


def numbers():
    """Numbers, each alone, after a sign, and in a list; each wrong one, and wrong after a sign with its sign marked."""
    found = []
    for text, value in NUMBERS:
        found += [gives(f"{{{{ {text} }}}}", str(value)), gives(f"{{{{ -{text} }}}}", str(-value)),
                  gives(f"{{{{ + {text} }}}}", str(value))]
    for text, reason, m, n in WRONG_NUMBERS:
        begin = 4 if (m, n) != (0, len(text)) else 3
        found.append(wrong(f"{{{{ {text} }}}}", reason, 3 + m, 3 + n))
        if text != "9223372036854775808" and text not in ("0x8000000000000000", "0b1" + "0" * 63, "0o1000000000000000000000"):
            found.append(wrong(f"{{{{ -{text} }}}}", reason, begin + m, 4 + n))
            found.append(wrong(f"{{{{ +{text} }}}}", reason, begin + m, 4 + n))
        found.append(wrong(f"{{% if [{text}] %}}", reason, 7 + m, 7 + n))
    lowest = [("9223372036854775808", 10), ("0x8000000000000000", 16), ("0b1" + "0" * 63, 2), ("0o1000000000000000000000", 8)]
    for text, base in lowest:
        found += [gives(f"{{{{ -{text} }}}}", "-9223372036854775808"), gives(f"{{{{ - {text} }}}}", "-9223372036854775808"),
                  wrong(f"{{{{ +{text} }}}}", RANGE.format(base), 3, 4 + len(text))]
    found += [wrong("{{ -9223372036854775809 }}", RANGE.format(10), 3, 23),
              wrong("{{ - 9223372036854775809 }}", RANGE.format(10), 3, 24),
              wrong("{{ -\n9223372036854775809 }}", RANGE.format(10), 3, 24),
              wrong("{{ - - 5 }}", "expected number, found minus", 5, 6),
              wrong("{{ 1 2 }}", "expected end expression, found number", 5, 6), gives("{{ -0 }}", "0"),
              gives("{{ -0x }}", "0")]
    return found


def strings():
    """Strings, each written, compared as a key and as a name of a template; each wrong one."""
    found = []
    for inner, text in STRINGS:
        found.append(gives(f'{{{{ "{inner}" }}}}', text))
        found.append(gives(f'{{% for k, v in {{"{inner}": 1}} %}}{{{{ k }}}}|{{{{ v }}}}{{% endfor %}}', text + "|1"))
        found.append(gives(f'{{% if "{inner}" %}}yes{{% else %}}no{{% endif %}}', "yes" if text else "no"))
    for text, reason, m, n in WRONG_STRINGS:
        found += [wrong(f"{{{{ {text} }}}}", reason, 3 + m, 3 + n), wrong(f"{{% include {text} %}}", reason, 11 + m, 11 + n),
                  wrong(f"{{{{ {{{text}: 1}} }}}}", reason, 4 + m, 4 + n)]
    for text, length in OPEN_STRINGS:
        tail = "" if "\n" not in text and "\r" not in text else " }}"
        found += [wrong("{{ " + text + tail, "undelimited string", 3, 3 + length),
                  wrong("é{% if " + text + tail, "undelimited string", 8, 8 + length)]
    return found


def indexes():
    """Indexes in a path."""
    large = "base 10 literal out of range for unsigned 64-bit integer"
    xs = {"xs": [[1, 2], [3, 4]], "m": {"0": 1}}
    return [
        gives("{{ xs.0.1 }}", "2", xs), gives("{{ xs.1.0 }}", "3", xs), gives("{{ xs.00.01 }}", "2", xs),
        gives("{{ xs?.1?.1 }}", "4", xs),
        gives("{{ xs . 0 . 1 }}", "2", xs), gives("{{ xs?.5 }}", "", xs), gives("{{ xs?.18446744073709551615 }}", "", xs),
        wrong("{{ xs.18446744073709551616 }}", large, 6, 26), wrong("{{ xs?.99999999999999999999 }}", large, 7, 27),
        wrong("{{ .18446744073709551616 }}", large, 4, 24),
        wrong("{{ a 18446744073709551616 }}", "expected end expression, found index", 5, 25),
        wrong("{{ xs.0x1 }}", "expected end expression, found identifier", 7, 9),
        wrong("{{ xs.1_0 }}", "expected end expression, found identifier", 7, 9),
        wrong("{{ xs.-1 }}", "expected identifier or index, found minus", 6, 7),
        wrong("{{ xs.1.5.a. }}", "expected identifier or index, found end expression", 13, 15),
        fails("{{ xs.18446744073709551615 }}", "index out of bounds, the length is 2", 5, 26, context=xs),
        fails("{{ m.0 }}", "map does not support integer-based access", 4, 6, context=xs),
        gives("{% for i in [1, 2] %}{{ i }}{% endfor %}", "12"), row("{{ [1, 2 | f] }}"),
        wrong("{{ a [1] }}", "expected end expression, found open bracket", 5, 6),
        wrong("{{ (a) 1 }}", "expected end expression, found index", 7, 8),
        wrong("{{ (1) 1 }}", "expected end expression, found number", 7, 8),
        wrong("{{ a?.1 2 }}", "expected end expression, found index", 8, 9),
    ]


def collections():
    """Lists and maps: commas, nesting, equal keys, the order of keys."""
    pairs = "{% for k, v in MAP %}{{ k }}={{ v }};{% endfor %}"
    maps = [('{"b": 1, "a": 2}', "a=2;b=1;"), ('{"a": 1, "a": 2}', "a=2;"), ('{"a": 1, "b": 2, "a": 3}', "a=3;b=2;"),
            ("{}", ""),
            ('{"é": 1, "z": 2, "Z": 3, "": 4}', "=4;Z=3;z=2;é=1;"), ('{"a": 1, "ab": 2, "aa": 3}', "a=1;aa=3;ab=2;"),
            ('{"\\n": 1, "\\t": 2}', "\t=2;\n=1;"), ('{"10": 1, "9": 2}', "10=1;9=2;"),
            ('{"\ue000": 1, "\U0001f600": 2}', "\ue000=1;\U0001f600=2;")]
    found = [gives(pairs.replace("MAP", text), wanted) for text, wanted in maps]
    empty = ["[]", "{}", '""', "0", "false", "[[]]", '{"a": 0}', '" "', "-1", "true", "[0]", '"0"', '"false"']
    falsy = 5
    found += [gives(f"{{% if {text} %}}t{{% else %}}f{{% endif %}}", "f" if n < falsy else "t") for n, text in enumerate(empty)]
    found += [gives(f"{{% if not {text} %}}t{{% else %}}f{{% endif %}}", "t" if n < falsy else "f") for n,
              text in enumerate(empty)]
    found += [gives("{% with [1, [2, [3]]] as l %}{{ l.1.1.0 }}{% endwith %}", "3"),
              row('{% with {"a": {"b": [7]}} as m %}{{ m.a.b.0 }}{% endwith %}'),
              gives('{% with {"a": {"b": [7]} } as m %}{{ m.a.b.0 }}{% endwith %}', "7"),
              gives("{{ true }}{{ false }}", "truefalse")]
    broken = ["{{ [,] }}", "{{ [1,,] }}", "{{ {,} }}", '{{ {"a"} }}', '{{ {"a": } }}', '{{ {"a": 1,,} }}', "{{ {a: 1} }}",
              '{{ {"a" 1} }}', "{{ [1 2] }}", "{{ [1: 2] }}",
              '{{ {"a": 1 "b": 2} }}', "{{ [[1] }}", '{{ {"a": [1} }}', "{{ (1] }}", "{{ [1) }}", "{{ {1} }}", "{{ () }}",
              "{{ ((1) }}", "{{ (1)) }}", "{{ [(1, 2)] }}", '{{ {"a": 1 | f} }}']
    return found + [row(text) for text in broken]


def rows():
    """All of them."""
    return numbers() + strings() + indexes() + collections()
