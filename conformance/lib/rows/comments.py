"""Comments: what they hold, where they may be, what is wrong with them."""
from . import gives, wrong

GOOD = [
    ("{# a #}", ""), ("a{# b #}c", "ac"), ("{# #}", ""), ("{#a#}", ""), ("{#\n#}", ""), ("{# a\nb #}x", "x"), ("{# - #}", ""),
    ("{#-a-#}", ""), (" {#- a -#} ", ""), ("a {#- b #} c", "a c"),
    ("a {# b -#} c", "a c"), ("{# a #}{# b #}", ""), ("{# { } % # #}", ""), ("{#{ a #}", ""), ("{# a }#}", ""),
    ("{# é日本 #}", ""), ("{# \" #}{{ 1 }}", "1"), ("{% if 1 %}{# a #}b{% endif %}", "b"),
    ("{% for x in [1, 2] %}{# a #}{{ x }}{% endfor %}", "12"), ("a\n{# b #}\nc", "a\n\nc"), ("{{ 1 -}} {# a #} b", "1 b"),
    ("{{ 1 -}} {#- a #} b", "1 b"), ("a {# b #} {{- 1 }}", "a 1"),
    ("{# endif #}", ""), ("{# @ #}", ""), ("{# '#}", ""), ("{# a - #}", ""), ("{#  #}", ""), ("{# ## #}", ""),
    ("{# {  { } } #}", ""), ("{{ \"{# a #}\" }}", "{# a #}"),
]
BAD = [
    ("{##}", "expected raw template, found end comment", 2, 4), ("{#-#}", "expected raw template, found end comment", 3, 5),
    ("{#--#}", "expected raw template, found end comment", 3, 6),
    ("{#", "expected raw template, found EOF", 2, 2), ("{#-", "expected raw template, found EOF", 3, 3),
    ("{#}", "expected end comment, found EOF", 3, 3), ("{# a", "expected end comment, found EOF", 4, 4),
    ("{# a #", "expected end comment, found EOF", 6, 6), ("{# é", "expected end comment, found EOF", 5, 5),
    ("{# a\n", "expected end comment, found EOF", 5, 5), ("{# {{ #}", "unclosed begin comment", 0, 2),
    ("{#{{ #}", "unclosed begin comment", 0, 2), ("{# {% #}", "unclosed begin comment", 0, 2),
    ("{# {# #}", "unclosed begin comment", 0, 2), ("{# {# #} #}", "unclosed begin comment", 0, 2),
    ("{# {{- #}", "unclosed begin comment", 0, 2), ("{#- {{ #}", "unclosed begin comment", 0, 3),
    ("{# }} #}", "unexpected end expression", 3, 5), ("{# %} #}", "unexpected end block", 3, 5),
    ("{# a -}} #}", "unexpected end expression", 5, 8), ("{#}}", "unexpected end expression", 2, 4),
    ("{#%}", "unexpected end block", 2, 4), ("{# {{ 1 }} #}", "unclosed begin comment", 0, 2),
    ("a #}", "unexpected end comment", 2, 4), ("#}", "unexpected end comment", 0, 2), ("-#}", "unexpected end comment", 0, 3),
    ("{# a #} #}", "unexpected end comment", 8, 10), ("{{ #}", "unexpected end comment", 3, 5),
    ("{{ {# #}", "unclosed begin expression", 0, 2), ("{% if {# a #} 1 %}", "unclosed begin block", 0, 2),
    ("{{ 1 {# a #} }}", "unclosed begin expression", 0, 2), ("x{# a %}", "unexpected end block", 6, 8),
    ("{{ 1 #}", "unexpected end comment", 5, 7), ("{% if 1 #}", "unexpected end comment", 8, 10),
    ("{% if 1 %}{##}{% endif %}", "expected raw template, found end comment", 12, 14),
    ("é{##}", "expected raw template, found end comment", 4, 6), ("{{ a {##}", "unclosed begin expression", 0, 2),
    ("\n{#", "expected raw template, found EOF", 3, 3),
]


def rows():
    """All of them."""
    return [gives(*it) for it in GOOD] + [wrong(*it) for it in BAD]
