// Texts of raw parts, comments and expressions, with their instructions.
use crate::syntax::parsing::outcomes::{Program, all_accepted};
use std::test::Fail;
use upon_syntax::compile::search::Searcher;

/// Raw parts, comments and expressions with their instructions.
pub static EXPRESSIONS: &[Program] = &[
    ("", ""),
    ("Hello", "raw <Hello>\n"),
    (
        "Hello {{ name }}!",
        "raw <Hello >\nvar <name> .name<name>\nemit\nraw <!>\n",
    ),
    (
        "{% if a %}yes{% endif %}",
        "var <a> .a<a>\njump if false 3\nraw <yes>\n",
    ),
    ("a{# note #}b", "raw <a>\nraw <b>\n"),
    ("a  {{- 1 -}}  b", "raw <a>\nliteral <1> 1\nemit\nraw <b>\n"),
    (
        "a  {%- if true %} b {% endif -%} c",
        "raw <a>\nliteral <true> true\njump if false 4\nraw < b >\nraw <c>\n",
    ),
    ("a {#- note -#} b", "raw <a>\nraw <b>\n"),
    (
        "{{ 42 }}{{ -7 }}{{ - 5 }}{{ +3 }}",
        "literal <42> 42\nemit\nliteral <-7> -7\nemit\nliteral <- 5> -5\nemit\nliteral <+3> 3\n\
         emit\n",
    ),
    (
        "{{ 1_000 }}{{ 0b101 }}{{ 0o17 }}{{ 0xff }}",
        "literal <1_000> 1000\nemit\nliteral <0b101> 5\nemit\nliteral <0o17> 15\nemit\n\
         literal <0xff> 255\nemit\n",
    ),
    (
        "{{ \"line\\n\" }}{{ \"a \\\"b\\\" \\\\ c\" }}",
        "literal <\"line\\n\"> line\n\nemit\nliteral <\"a \\\"b\\\" \\\\ c\"> a \"b\" \\ c\nemit\n",
    ),
    (
        "{{ user.name }}{{ items.0 }}",
        "var <user.name> .user<user> .name<.name>\nemit\nvar <items.0> .items<items> .0<.0>\n\
         emit\n",
    ),
    (
        "{{ user?.mail }}{{ .a }}{{ ?.a }}{{ a . b }}",
        "var <user?.mail> .user<user> ?.mail<?.mail>\nemit\nvar <.a> .a<.a>\nemit\n\
         var <?.a> ?.a<?.a>\nemit\nvar <a . b> .a<a> .b<. b>\nemit\n",
    ),
    (
        "{{ [1, \"two\", [3],] }}",
        "list <[1, \"two\", [3],]>\nliteral <1> 1\nlist push\nliteral <\"two\"> two\nlist push\n\
         list <[3]>\nliteral <3> 3\nlist push\nlist push\nemit\n",
    ),
    (
        "{{ {\"a\": 1, \"b\": x.y,} }}",
        "map <{\"a\": 1, \"b\": x.y,}>\nliteral <1> 1\nmap insert <\"a\"> a\n\
         var <x.y> .x<x> .y<.y>\nmap insert <\"b\"> b\nemit\n",
    ),
    (
        "{{ now() }}{{ max(1, x) }}",
        "emit with now 0 <now()>\nliteral <1> 1\nvar <x> .x<x>\nemit with max 2 <max(1, x)>\n",
    ),
    (
        "{{ name | lower }}{{ a | f: 1, \"x\" | g }}",
        "var <name> .name<name>\nemit with lower 1 <name | lower>\nvar <a> .a<a>\nliteral <1> 1\n\
         literal <\"x\"> x\napply f 3 <a | f: 1, \"x\">\nemit with g 1 <a | f: 1, \"x\" | g>\n",
    ),
    (
        "{{ (a | lower) }}{{ (1) | f }}",
        "var <a> .a<a>\nemit with lower 1 <a | lower>\nliteral <1> 1\nemit with f 1 <(1) | f>\n",
    ),
    (
        "{{ [(a | lower), 1] }}",
        "list <[(a | lower), 1]>\nvar <a> .a<a>\napply lower 1 <a | lower>\nlist push\n\
         literal <1> 1\nlist push\nemit\n",
    ),
    ("{{ a.0.5 }}", "var <a.0.5> .a<a> .0<.0> .5<.5>\nemit\n"),
    (
        "{{ {\"a\": {\"b\": 1} } }}",
        "map <{\"a\": {\"b\": 1} }>\nmap <{\"b\": 1}>\nliteral <1> 1\nmap insert <\"b\"> b\n\
         map insert <\"a\"> a\nemit\n",
    ),
];

#[test]
fn programs_of_expressions(rt: HostRuntime) -> Result<(), Fail> {
    all_accepted(&rt, rt.alloc(), &Searcher::new(), EXPRESSIONS)
}
