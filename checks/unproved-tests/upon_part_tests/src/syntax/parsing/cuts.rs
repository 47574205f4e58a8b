// Texts that are refused for their delimiters, brackets, characters or tokens.
use crate::syntax::parsing::outcomes::{Refusal, all_refused};
use std::test::Fail;
use upon_syntax::compile::search::Searcher;

/// Delimiters, brackets, characters and tokens.
pub static CUTS: &[Refusal] = &[
    ("a %} b", "unexpected end block", 2, 4),
    ("a #} b", "unexpected end comment", 2, 4),
    ("a -}} ", "unexpected end expression", 2, 5),
    ("{% }}", "unexpected end expression", 3, 5),
    ("{{ #}", "unexpected end comment", 3, 5),
    ("{% {{ %}", "unclosed begin block", 0, 2),
    ("a {{- {%", "unclosed begin expression", 2, 5),
    ("{# {{ #}", "unclosed begin comment", 0, 2),
    ("{{ (1 }}", "unclosed open parenthesis", 3, 4),
    ("{% if ([1 %}", "unclosed open bracket", 7, 8),
    ("{{ [1, 2 }}", "unclosed open bracket", 3, 4),
    ("{{ ] }}", "unexpected close bracket", 3, 4),
    ("{{ } }}", "unexpected close brace", 3, 4),
    ("{{ (1] }}", "unexpected close bracket", 5, 6),
    ("{{ [1} }}", "unexpected close brace", 5, 6),
    ("{{ [1) }}", "unexpected close parenthesis", 5, 6),
    ("{{ ? }}", "unexpected character", 3, 5),
    ("{{ a ?", "unexpected character", 5, 6),
    ("{{ a ?é }}", "unexpected character", 5, 8),
    ("{{ 日 § }}", "unexpected character", 7, 9),
    ("{{ \"a\n\" }}", "undelimited string", 3, 5),
    ("{{ \"a\r\n\" }}", "undelimited string", 3, 5),
    (
        "{{ a. }}",
        "expected identifier or index, found end expression",
        6,
        8,
    ),
    (
        "{{ a?. :",
        "expected identifier or index, found colon",
        7,
        8,
    ),
    ("{{ a?.", "expected token, found EOF", 6, 6),
    ("{{ + x }}", "expected number, found identifier", 5, 6),
    ("{{ +", "expected number, found EOF", 4, 4),
    ("{{-}}", "expected expression, found end expression", 3, 5),
    ("{{ }}", "expected expression, found end expression", 3, 5),
    ("{% %}", "expected keyword, found end block", 3, 5),
    ("{% if %}", "expected expression, found end block", 6, 8),
    ("{% for %}", "expected identifier, found end block", 7, 9),
    ("{% include %}", "expected string, found end block", 11, 13),
    ("{#--#}", "expected raw template, found end comment", 3, 6),
    ("{{ a ] }}", "unexpected close bracket", 5, 6),
    ("{{ a ( }}", "unclosed open parenthesis", 5, 6),
    (
        "{{ a.b(1) }}",
        "expected end expression, found open parenthesis",
        6,
        7,
    ),
    ("{{ [1 2] }}", "expected close bracket, found number", 6, 7),
    ("{{ (a) 1 }}", "expected end expression, found index", 7, 8),
    (
        "{{ 1 [2] }}",
        "expected end expression, found open bracket",
        5,
        6,
    ),
    (
        "{{ 1 {\"k\": 2} }}",
        "expected end expression, found open brace",
        5,
        6,
    ),
    ("{{ 1 + 2 }}", "expected end expression, found plus", 5, 6),
    (
        "{{ 1 \"x\" }}",
        "expected end expression, found string",
        5,
        8,
    ),
    (
        "{{ 1 ?.a }}",
        "expected end expression, found optional member access operator",
        5,
        7,
    ),
    (
        "{{ a | }}",
        "expected identifier, found end expression",
        7,
        9,
    ),
    ("{{ { , } }}", "expected string, found comma", 5, 6),
    ("{{ {\"k\" | ", "expected colon, found pipe", 8, 9),
];

#[test]
fn refused_cuts(rt: HostRuntime) -> Result<(), Fail> {
    all_refused(&rt, rt.alloc(), &Searcher::new(), CUTS)
}
