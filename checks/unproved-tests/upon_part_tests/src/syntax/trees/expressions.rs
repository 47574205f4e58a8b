// Texts of raw parts, comments and expressions, with their trees.
use crate::syntax::trees::{Tree, all_trees};
use std::test::Fail;

// Raw parts, comments and expressions with their trees.
static EXPRESSIONS: &[Tree] = &[
    ("", ""),
    ("Hello", " (raw <Hello>)"),
    (
        "Hello {{ name }}!",
        " (raw <Hello >) (show <{{ name }}> (var <name> .name<name>)) (raw <!>)",
    ),
    (
        "{% if a %}yes{% endif %}",
        " (if (var <a> .a<a>) (raw <yes>))",
    ),
    ("a{# note #}b", " (raw <a>) (raw <b>)"),
    (
        "a  {{- 1 -}}  b",
        " (raw <a>) (show <{{- 1 -}}> (literal <1> 1)) (raw <b>)",
    ),
    (
        "a  {%- if true %} b {% endif -%} c",
        " (raw <a>) (if (literal <true> true) (raw < b >)) (raw <c>)",
    ),
    ("a {#- note -#} b", " (raw <a>) (raw <b>)"),
    (
        "{{ 42 }}{{ -7 }}{{ - 5 }}{{ +3 }}",
        " (show <{{ 42 }}> (literal <42> 42)) (show <{{ -7 }}> (literal <-7> -7))\
         \x20(show <{{ - 5 }}> (literal <- 5> -5)) (show <{{ +3 }}> (literal <+3> 3))",
    ),
    (
        "{{ 1_000 }}{{ 0b101 }}{{ 0o17 }}{{ 0xff }}",
        " (show <{{ 1_000 }}> (literal <1_000> 1000)) (show <{{ 0b101 }}> (literal <0b101> 5))\
         \x20(show <{{ 0o17 }}> (literal <0o17> 15)) (show <{{ 0xff }}> (literal <0xff> 255))",
    ),
    (
        "{{ \"line\\n\" }}{{ \"a \\\"b\\\" \\\\ c\" }}",
        " (show <{{ \"line\\n\" }}> (literal <\"line\\n\"> line\n))\
         \x20(show <{{ \"a \\\"b\\\" \\\\ c\" }}> (literal <\"a \\\"b\\\" \\\\ c\"> a \"b\" \\ c))",
    ),
    (
        "{{ user.name }}{{ items.0 }}",
        " (show <{{ user.name }}> (var <user.name> .user<user> .name<.name>))\
         \x20(show <{{ items.0 }}> (var <items.0> .items<items> .0<.0>))",
    ),
    (
        "{{ user?.mail }}{{ .a }}{{ ?.a }}{{ a . b }}",
        " (show <{{ user?.mail }}> (var <user?.mail> .user<user> ?.mail<?.mail>))\
         \x20(show <{{ .a }}> (var <.a> .a<.a>)) (show <{{ ?.a }}> (var <?.a> ?.a<?.a>))\
         \x20(show <{{ a . b }}> (var <a . b> .a<a> .b<. b>))",
    ),
    (
        "{{ [1, \"two\", [3],] }}",
        " (show <{{ [1, \"two\", [3],] }}> (list <[1, \"two\", [3],]> (literal <1> 1)\
         \x20(literal <\"two\"> two) (list <[3]> (literal <3> 3))))",
    ),
    (
        "{{ {\"a\": 1, \"b\": x.y,} }}",
        " (show <{{ {\"a\": 1, \"b\": x.y,} }}> (map <{\"a\": 1, \"b\": x.y,}>\
         \x20a<\"a\"> (literal <1> 1) b<\"b\"> (var <x.y> .x<x> .y<.y>)))",
    ),
    (
        "{{ now() }}{{ max(1, x) }}",
        " (show <{{ now() }}> (call <now()> now)) (show <{{ max(1, x) }}> (call <max(1, x)> max\
         \x20(args <max(1, x> (literal <1> 1) (var <x> .x<x>))))",
    ),
    (
        "{{ name | lower }}{{ a | f: 1, \"x\" | g }}",
        " (show <{{ name | lower }}> (filter <name | lower> (var <name> .name<name>) lower))\
         \x20(show <{{ a | f: 1, \"x\" | g }}> (filter <a | f: 1, \"x\" | g>\
         \x20(filter <a | f: 1, \"x\"> (var <a> .a<a>) f\
         \x20(args <: 1, \"x\"> (literal <1> 1) (literal <\"x\"> x))) g))",
    ),
    (
        "{{ (a | lower) }}{{ (1) | f }}",
        " (show <{{ (a | lower) }}> (paren <(a | lower)> (filter <a | lower> (var <a> .a<a>) lower)))\
         \x20(show <{{ (1) | f }}> (filter <(1) | f> (paren <(1)> (literal <1> 1)) f))",
    ),
    (
        "{{ [(a | lower), 1] }}",
        " (show <{{ [(a | lower), 1] }}> (list <[(a | lower), 1]>\
         \x20(paren <(a | lower)> (filter <a | lower> (var <a> .a<a>) lower)) (literal <1> 1)))",
    ),
    (
        "{{ a.0.5 }}",
        " (show <{{ a.0.5 }}> (var <a.0.5> .a<a> .0<.0> .5<.5>))",
    ),
    (
        "{{ {\"a\": {\"b\": 1} } }}",
        " (show <{{ {\"a\": {\"b\": 1} } }}> (map <{\"a\": {\"b\": 1} }> a<\"a\">\
         \x20(map <{\"b\": 1}> b<\"b\"> (literal <1> 1))))",
    ),
];

#[test]
fn trees_of_expressions(rt: HostRuntime) -> Result<(), Fail> {
    all_trees(&rt, rt.alloc(), EXPRESSIONS)
}
