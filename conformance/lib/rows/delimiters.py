"""Other delimiters: sorts that are not set, equal texts, texts within others, with blanks, letters, digits and quotes."""
from . import fails, gives, wrong

ANGLES = [["expr", "<?", "?>"], ["block", "<%", "%>"], ["comment", "<#", "#>"]]
ONE = [["expr", "<", ">"], ["block", "[", "]"]]
SAME = [["expr", "%%", "%%"]]
PREFIX = [["expr", "<", "<<"]]
HYPHENS = [["expr", "-", "--"]]
BLANKS = [["expr", " <", ">"]]
BLANK_END = [["expr", "<%", "%> "]]
LETTERS = [["expr", "begin", "end"], ["block", "do", "od"]]
LETTER = [["expr", "a", "a"]]
TOKENS = [["expr", "(", ")"], ["block", "[", "]"], ["comment", "/*", "*/"]]
DOUBLE = [["expr", "<{", "}>"], ["block", "<[", "]>"]]
PARENS = [["expr", "<?", "?>"], ["block", "((", "))"]]
QUOTES = [["expr", '"', "'"]]
LINES = [["expr", "$", "\n"], ["block", "#", ";"]]
WIDE = [["expr", "«", "»"], ["block", "【", "】"], ["comment", "¿", "?"]]
EQUAL_SORTS = [["expr", "@", "!"], ["block", "@", "!"], ["comment", "@", "!"]]
COMMENT_ONLY = [["comment", "/*", "*/"]]
BLOCK_ONLY = [["block", "{%", "%}"]]
NO_COMMENT = [["expr", "{{", "}}"], ["block", "{%", "%}"]]
NESTED = [["expr", "{", "}"], ["block", "{{", "}}"], ["comment", "{{{", "}}}"]]
DIGITS = [["expr", "1", "2"]]
DASHED = [["expr", "<-", "->"], ["block", "<%", "%>"]]
NONE = []


def texts():
    """What templates give under them."""
    a, xs = {"a": 1}, {"a": 1, "xs": [1, 2]}
    return [
        (ANGLES, "x<? a ?>y", "x1y", a), (ANGLES, "<% if a %>b<% endif %><# c #>{{ a }}", "b{{ a }}", a),
        (ANGLES, "<%- for x in xs -%> <?- x -?> <%- endfor -%>", "12", xs), (ANGLES, "a <#- c -#> b", "ab", a),
        (ONE, "x< a >y", "x1y", a), (ONE, "[ if a ]b[ endif ]", "b", a), (ONE, "x <- a -> y", "x1y", a),
        (ONE, "{{ a }}{% a %}", "{{ a }}{% a %}", a), (SAME, "%% a -%%", "1", a), (SAME, "x%% a -%% y%%", None, a),
        (SAME, "x %%- a -%% y", "x1y", a), (PREFIX, "< a <<", "1", a), (PREFIX, " <- a -<< ", "1", a),
        (HYPHENS, "- 1 --", "1", a), (HYPHENS, "- 1 ---", "1", a), (HYPHENS, "x - 1 ---", "x 1", a),
        (BLANKS, "a  < 1 >", "a 1", a),
        (BLANKS, "a  <- 1 >", "a1", a), (BLANKS, "a<1", "a<1", a), (BLANK_END, "<% 1 %>   <%- 2 %> ", "12", a),
        (BLANK_END, "<% 1 %> x", "1x", a), (LETTERS, "x begin a end y", "x 1 y", a), (LETTERS, "do include \"t\" od", None, a),
        (LETTERS, "x begin- a -end y", "x1y", a), (TOKENS, "x(a)y", "x1y", a), (TOKENS, "[if a]b[endif]", "b", a),
        (TOKENS, "a/* ( [ */b", None, a), (TOKENS, "a/* c */b", "ab", a),
        (DOUBLE, "<[ if a ]><{ a }><[ endif ]>{{ a }}", "1{{ a }}", a),
        (PARENS, "(( if a ))<? a ?>(( endif ))", "1", a), (QUOTES, "x\"a'y", "x1y", a), (LINES, "x $a\ny", "x 1y", a),
        (LINES, "#if a;b#endif;", "b", a), (WIDE, "x« a »y", "x1y", a), (WIDE, "【 if a 】b【 endif 】¿ c ?", "b", a),
        (WIDE, "x «- a -» y", "x1y", a), (EQUAL_SORTS, "x@ a !y", "x1y", a), (COMMENT_ONLY, "a/* b */{{ c }}", "a{{ c }}", a),
        (COMMENT_ONLY, "a /*- b -*/ {% c %}", "a{% c %}", a),
        (BLOCK_ONLY, "{% if a %}{{ a }}{# #}{% endif %}", "{{ a }}{# #}", a),
        (NO_COMMENT, "{{ a }}{# b #}", "1{# b #}", a), (NESTED, "{a}{{ if a }}b{{ endif }}{{{ c }}}", "1b", a),
        (NESTED, "{ a }", "1", a), (NONE, "{{ a }}{% if %}{# ", "{{ a }}{% if %}{# ", a), (NONE, "", "", a),
        (DASHED, "x <- a -> y", "x 1 y", a), (DASHED, "x <-- a --> y", "x1y", a), (DASHED, "x <- -5 -> y", "x -5 y", a),
        (DIGITS, "x1 a 2y", "x1y", a),
        (LETTER, "xaba", None, {"b": 3}), ([["expr", "{{", "}}"], ["expr", "<", ">"]], "< a >{{ a }}", "1{{ a }}", a),
        ([["comment", "#", "#"], ["expr", "$", "$"]], "#c#x", None, a),
    ]


def refused():
    """What is refused under them."""
    return [
        (SAME, "%% a %%", "unclosed begin expression", 0, 2), (ANGLES, "<? a", "expected end expression, found EOF", 4, 4),
        (ANGLES, "a ?> b", "unexpected end expression", 2, 4), (ANGLES, "<? a %>", "unexpected end block", 5, 7),
        (ANGLES, "<# a", "expected end comment, found EOF", 4, 4),
        (ANGLES, "<##>", "expected raw template, found end comment", 2, 4),
        (ANGLES, "<% if a %>", "unclosed `if` block", 0, 10),
        (ANGLES, "<? {{ a }} ?>", "expected string, found open brace", 4, 5),
        (ANGLES, "<? a }} ?>", "unexpected close brace", 5, 6), (ONE, "< a < b >", "unclosed begin expression", 0, 1),
        (ONE, "< [1] >", "unclosed begin expression", 0, 1), (ONE, "[ for x in [] ]", "unclosed begin block", 0, 1),
        (ONE, "a > b", "unexpected end expression", 2, 3),
        (HYPHENS, "- -1 --", "unclosed begin expression", 0, 1), (TOKENS, "(f(1))", "unclosed begin expression", 0, 1),
        (TOKENS, "([1])", "unclosed begin expression", 0, 1),
        (QUOTES, "\"'", "expected expression, found end expression", 1, 2),
        (LINES, "$a", "expected end expression, found EOF", 2, 2),
        (WIDE, "« a", "expected end expression, found EOF", 4, 4), (WIDE, "a » b", "unexpected end expression", 2, 4),
        (WIDE, "【 endif 】", "unexpected `endif` block", 0, 13), (COMMENT_ONLY, "a */ b", "unexpected end comment", 2, 4),
        (COMMENT_ONLY, "/*", "expected raw template, found EOF", 2, 2),
        (BLOCK_ONLY, "{% if {{ %}", "expected string, found open brace", 7, 8),
        (NESTED, "{ {} }", "unclosed begin expression", 0, 1),
        (NESTED, "{{{}}}", "expected raw template, found end comment", 3, 6),
        (NESTED, "{{}}", "expected keyword, found end block", 2, 4),
        (EQUAL_SORTS, "@ if a !", "unexpected keyword `if`", 2, 4), (BLANK_END, "<% 1 %>", "unexpected character", 5, 6),
        (LETTERS, "begin end", "expected expression, found end expression", 6, 9), (LETTERS, "begin x endx", None, 0, 0),
        (LETTERS, "blend", "unexpected end expression", 2, 5),
        (LETTERS, "do if a od b do endif od", "unexpected end expression", 16, 19),
        (BLANKS, "a< 1 >", "unexpected end expression", 5, 6),
        (DASHED, "x <- a", "expected end expression, found EOF", 6, 6), (PREFIX, "< a <", "unclosed begin expression", 0, 1),
        (DIGITS, "1 1 2", "unclosed begin expression", 0, 1), (NO_COMMENT, "{{ {# }}", "unexpected character", 4, 5),
    ]


def rows():
    """All of them, and what fails under them while a template is rendered; includes are under the same delimiters."""
    found = [gives(source, text, context, syntax=syntax) for syntax, source, text, context in texts()]
    found += [wrong(*it, syntax=syntax) for syntax, *it in refused()]
    found += [
        fails("a<? b ?>", "not found in this scope", 4, 5, "a", syntax=ANGLES),
        fails("«é»", "not found in this scope", 2, 4, syntax=WIDE),
        wrong("<% for x in 1 %>", "unclosed `for` block", 0, 16, syntax=ANGLES),
        fails("<% for x in 1 %><% endfor %>", "expected iterable, but expression evaluated to integer", 12, 13, syntax=ANGLES),
        gives('<% include "t" %>', "1{{ a }}", {"a": 1}, syntax=ANGLES, templates={"t": "<? a ?>{{ a }}"}),
        fails('<% include "t" %>', "not found in this scope", 3, 4, template="t", syntax=ANGLES,
              templates={"t": "<? a ?>{{ a }}"}),
        fails('<% include "x" %>', "unknown template", 11, 14, syntax=ANGLES),
    ]
    return found
