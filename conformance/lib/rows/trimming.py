"""Text between tags, and what hyphens take of it: each kind of tag, with each kind of whitespace, on each side."""
import itertools

from . import gives

# Whitespace, and what is none.
WHITE = [" ", "\t", "\n", "\r\n", " \n\t ", "\u00a0", "\u2003", "\u3000", "\x0b", "\x0c", "\u0085", "\u2028"]
NO_WHITE = ["\u200b", "\ufeff", "\u00ad", "x", "_", "\x1c"]
# A tag of each kind, its delimiters as the first and the last of its parts.
TAGS = [("{{", " 1 ", "}}"), ("{%", " include \"t\" ", "%}"), ("{#", " note ", "#}")]


def sides():
    """A tag between two texts, with each hyphen or none, and each kind of whitespace."""
    found = []
    texts = {"{{": "1", "{%": "T", "{#": ""}
    for (begin, inside, end), white, left, right in itertools.product(TAGS, WHITE + NO_WHITE, ("", "-"), ("", "-")):
        if (begin == "{#" or white not in WHITE[:5]) and (left, right) == ("", ""):
            continue
        source = f"a{white}{begin}{left}{inside}{right}{end}{white}b"
        takes = white in WHITE
        before = "" if left and takes else white
        behind = "" if right and takes else white
        found.append(gives(source, f"a{before}{texts[begin]}{behind}b", templates={"t": "T"}))
    return found


def between():
    """A text between two tags, which both trim it or one of them, and is not trimmed beyond."""
    found = []
    for inner, left, right in itertools.product(["", " ", "\n", " x ", " \u00a0", "x", " x", "x "], ("", "-"), ("", "-")):
        text = inner
        if right:
            text = text.rstrip(" \n\u00a0")
        if left:
            text = text.lstrip(" \n\u00a0")
        found.append(gives(f" {{{{ 1 {left}}}}}{inner}{{{{{right} 2 }}}} ", f" 1{text}2 "))
        found.append(gives(f"{{% if 1 {left}%}}{inner}{{%{right} endif %}} ", f"{text} "))
        found.append(gives(f"{{# a {left}#}}{inner}{{#{right} b #}}", text))
    return found


def forms():
    """Hyphens beside numbers and names, alone, and several."""
    rows = [
        ("a {{-5}}", "a5"), ("a {{--5}}", "a-5"), ("a {{- -5 }}", "a-5"), ("a {{ -5 }}", "a -5"), ("a{{-1-}} b", None),
        ("a{{- 1-}} b", None), ("{{ a-}}", None), ("{{-}}", None),
        ("{{--}}", None), ("{{ - }}", None), ("{{ -}} }}", None), ("  {%- if 1 -%}  {%- endif -%}  ", ""),
        ("a  {#- x -#}  b  {#- y -#}  c", "abc"), ("a {{ 1 -}} {{ 2 }}", "a 12"),
        ("a {{ 1 }} {{- 2 }}", "a 12"), ("{{ 1 -}}\n\n\n{{ 2 }}", "12"), (" {{- 1 }}", "1"), ("{{ 1 -}} ", "1"),
        ("{{- 1 -}}", "1"), ("  {{- \"  \" -}}  ", "  "),
        ("a {% if 0 -%} b {%- endif %} c", "a  c"), ("a {%- if 1 %} b {% endif -%} c", "a b c"),
        ("{%- for x in [1, 2] -%} {{ x }} {%- endfor -%}", "12"),
        ("{% for x in [1, 2] -%} {{ x }} {% endfor %}", "1 2 "), ("{% for x in [1, 2] %} {{ x }} {%- endfor %}", " 1 2"),
        ("{% for x in [1, 2] %}\n{{ x }}\n{%- endfor %}", "\n1\n2"),
        ("a }", "a }"), ("a { b", "a { b"), ("a {", "a {"), ("} a", "} a"), ("{ { a } }", "{ { a } }"), ("%", "%"),
        ("# {", "# {"), ("-", "-"), ("a\r\nb", "a\r\nb"), ("\n", "\n"), ("é日本😀", "é日本😀"),
        ("\ufeffa", "\ufeffa"), ("\u0000", "\u0000"), ("a{b}c%d#e", "a{b}c%d#e"), ("{{ 1 }}}", "1}"), ("{{{ 1 }}", None),
        ("{{ 1 }}}}", None), ("{ {{ 1 }} }", "{ 1 }"), ("{{ 1 }}{", "1{"),
        ("-{{ 1 }}-", "-1-"), ("{{ 1 --}}", None), ("{{ 1 - }}", None), ("{% if 1 --%}{% endif %}", None), ("a -}} b", None),
        ("a {{- b", None), ("{%-", None), ("{#-", None), ("{{-", None),
        ("{%- -%}", None), ("{%--%}", None), ("{{ 1 -}", None), ("{{ 1 } }", None), ("{ { 1 }}", None), ("{{ 1 %}", None),
        ("{% if 1 }}", None), ("{{ 1 #}", None), ("{{ {{ 1 }} }}", None),
        ("{{ \"a\"-}} b", "ab"), ("{{ true-}} b", "trueb"), ("{{ [1]-}}", None), ("{{ (1)-}} b", "1b"),
    ]
    return [gives(source, text) for source, text in rows]


def rows():
    """All of them."""
    return sides() + between() + forms()
