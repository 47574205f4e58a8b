// Refused texts of comments, refused texts with several faults at one place, and one text for each kind of fault.
use crate::syntax::parsing::outcomes::{Refusal, all_refused};
use std::test::Fail;
use upon_syntax::compile::search::Searcher;

/// Comments, what is reported where several faults are at one offset, and a text for each kind of fault.
pub static MEETINGS: &[Refusal] = &[
    ("{##}", "expected raw template, found end comment", 2, 4),
    ("{#-#}", "expected raw template, found end comment", 3, 5),
    ("{#", "expected raw template, found EOF", 2, 2),
    ("{#{{ #}", "unclosed begin comment", 0, 2),
    ("{# a", "expected end comment, found EOF", 4, 4),
    ("{# a }} #}", "unexpected end expression", 5, 7),
    ("{# a {% #}", "unclosed begin comment", 0, 2),
    ("{{ [1, }}", "unclosed open bracket", 3, 4),
    ("{{ a ) }}", "unexpected close parenthesis", 5, 6),
    ("{{ [ {{", "unclosed begin expression", 0, 2),
    ("{{ [ %}", "unexpected end block", 5, 7),
    ("{{ a \"b", "undelimited string", 5, 7),
    ("{{ a @ }}", "unexpected character", 5, 6),
    ("{{ a | 0b2 }}", "expected identifier, found number", 7, 10),
    ("{{ 0b2 x }}", "invalid digit for base 2 literal", 5, 6),
    (
        "{{ - 9223372036854775809 }}",
        "base 10 literal out of range for 64-bit integer",
        3,
        24,
    ),
    (
        "{{ 1z99999999999999999999 }}",
        "invalid digit for base 10 literal",
        4,
        5,
    ),
    (
        "{{ 99999999999999999999z }}",
        "base 10 literal out of range for 64-bit integer",
        3,
        24,
    ),
    ("{{ - 0b102 }}", "invalid digit for base 2 literal", 9, 10),
    ("{{ -1.5 }}", "invalid float literal", 3, 7),
    ("{{ 0b2.1 }}", "invalid float literal", 3, 8),
    ("{{ \"\\q\\z\" }}", "unknown escape character", 5, 6),
    (
        "{{ a 18446744073709551616 }}",
        "expected end expression, found index",
        5,
        25,
    ),
    (
        "{% for x as y %}",
        "expected keyword `in`, found keyword `as`",
        9,
        11,
    ),
    ("{% if else %}", "unexpected keyword `else`", 6, 10),
    (
        "{{ a.if }}",
        "expected identifier or index, found keyword",
        5,
        7,
    ),
    (
        "{% with a in b %}",
        "expected keyword `as`, found keyword `in`",
        10,
        12,
    ),
    ("{% else x %}", "expected end block, found identifier", 8, 9),
    ("{% else if 1 %}", "unexpected `else if` block", 0, 15),
    (
        "{% if 1 %}{{ a",
        "expected end expression, found EOF",
        14,
        14,
    ),
    (
        "{% with 1 as a %}{% if 1 %}",
        "unclosed `with` block",
        0,
        17,
    ),
    (
        "{{ () }}",
        "expected expression, found close parenthesis",
        4,
        5,
    ),
    ("{{ [,] }}", "expected expression, found comma", 4, 5),
    ("{{ [1,,] }}", "expected expression, found comma", 6, 7),
    (
        "{{ f(1,) }}",
        "expected expression, found close parenthesis",
        7,
        8,
    ),
    ("{{ [1 | f] }}", "expected close bracket, found pipe", 6, 7),
    ("{{ a 1 }}", "expected end expression, found index", 5, 6),
    ("{{ - -5 }}", "expected number, found minus", 5, 6),
    ("{% if not not a %}", "unexpected keyword `not`", 10, 13),
    (
        "{{ true.a }}",
        "expected end expression, found member access operator",
        7,
        8,
    ),
    ("{{ {\"a\": {\"b\": 1}} }}", "unclosed open brace", 9, 10),
    ("{{ \"a", "undelimited string", 3, 5),
    ("{#}", "expected end comment, found EOF", 3, 3),
    (
        "{{ 9223372036854775808 }}",
        "base 10 literal out of range for 64-bit integer",
        3,
        22,
    ),
    ("{{ 5-}}", "invalid float literal", 3, 5),
    (
        "{{ a.18446744073709551616 }}",
        "base 10 literal out of range for unsigned 64-bit integer",
        5,
        25,
    ),
    ("{{ \"\\q\" }}", "unknown escape character", 5, 6),
    ("{% endif %}", "unexpected `endif` block", 0, 11),
    ("{% if a %}", "unclosed `if` block", 0, 10),
];

#[test]
fn refused_meetings(rt: HostRuntime) -> Result<(), Fail> {
    all_refused(&rt, rt.alloc(), &Searcher::new(), MEETINGS)
}
