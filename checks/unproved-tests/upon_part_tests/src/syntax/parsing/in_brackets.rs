// Texts that are refused after a value in brackets.
// There are three texts for each point: a wrong token, a wrong keyword, and the text's end there.
use crate::syntax::parsing::outcomes::{Refusal, all_refused};
use std::test::Fail;
use upon_syntax::compile::search::Searcher;

/// After a value in brackets.
pub static IN_BRACKETS: &[Refusal] = &[
    (
        "{{ (a b",
        "expected close parenthesis, found identifier",
        6,
        7,
    ),
    (
        "{{ (a if",
        "expected close parenthesis, found keyword",
        6,
        8,
    ),
    ("{{ (a", "expected close parenthesis, found EOF", 5, 5),
    (
        "{{ (a.b b",
        "expected close parenthesis, found identifier",
        8,
        9,
    ),
    (
        "{{ (a.b if",
        "expected close parenthesis, found keyword",
        8,
        10,
    ),
    ("{{ (a.b", "expected close parenthesis, found EOF", 7, 7),
    (
        "{{ (1 b",
        "expected close parenthesis, found identifier",
        6,
        7,
    ),
    (
        "{{ (1 if",
        "expected close parenthesis, found keyword",
        6,
        8,
    ),
    ("{{ (1", "expected close parenthesis, found EOF", 5, 5),
    (
        "{{ (1 | f b",
        "expected close parenthesis, found identifier",
        10,
        11,
    ),
    (
        "{{ (1 | f if",
        "expected close parenthesis, found keyword",
        10,
        12,
    ),
    ("{{ (1 | f", "expected close parenthesis, found EOF", 9, 9),
    (
        "{{ (1 | f: a b",
        "expected close parenthesis, found identifier",
        13,
        14,
    ),
    (
        "{{ (1 | f: a if",
        "expected close parenthesis, found keyword",
        13,
        15,
    ),
    (
        "{{ (1 | f: a",
        "expected close parenthesis, found EOF",
        12,
        12,
    ),
    (
        "{{ (1 | f: a.b b",
        "expected close parenthesis, found identifier",
        15,
        16,
    ),
    (
        "{{ (1 | f: a.b if",
        "expected close parenthesis, found keyword",
        15,
        17,
    ),
    (
        "{{ (1 | f: a.b",
        "expected close parenthesis, found EOF",
        14,
        14,
    ),
    (
        "{{ (1 | f: 1 b",
        "expected close parenthesis, found identifier",
        13,
        14,
    ),
    (
        "{{ (1 | f: 1 if",
        "expected close parenthesis, found keyword",
        13,
        15,
    ),
    (
        "{{ (1 | f: 1",
        "expected close parenthesis, found EOF",
        12,
        12,
    ),
    (
        "{{ f(a b",
        "expected close parenthesis, found identifier",
        7,
        8,
    ),
    (
        "{{ f(a if",
        "expected close parenthesis, found keyword",
        7,
        9,
    ),
    ("{{ f(a", "expected close parenthesis, found EOF", 6, 6),
    (
        "{{ f(a.b b",
        "expected close parenthesis, found identifier",
        9,
        10,
    ),
    (
        "{{ f(a.b if",
        "expected close parenthesis, found keyword",
        9,
        11,
    ),
    ("{{ f(a.b", "expected close parenthesis, found EOF", 8, 8),
    (
        "{{ f(1 b",
        "expected close parenthesis, found identifier",
        7,
        8,
    ),
    (
        "{{ f(1 if",
        "expected close parenthesis, found keyword",
        7,
        9,
    ),
    ("{{ f(1", "expected close parenthesis, found EOF", 6, 6),
    ("{{ [a b", "expected close bracket, found identifier", 6, 7),
    ("{{ [a if", "expected close bracket, found keyword", 6, 8),
    ("{{ [a", "expected close bracket, found EOF", 5, 5),
    (
        "{{ [a.b b",
        "expected close bracket, found identifier",
        8,
        9,
    ),
    ("{{ [a.b if", "expected close bracket, found keyword", 8, 10),
    ("{{ [a.b", "expected close bracket, found EOF", 7, 7),
    ("{{ [1 b", "expected close bracket, found identifier", 6, 7),
    ("{{ [1 if", "expected close bracket, found keyword", 6, 8),
    ("{{ [1", "expected close bracket, found EOF", 5, 5),
    (
        "{{ {\"k\": a b",
        "expected close brace, found identifier",
        11,
        12,
    ),
    (
        "{{ {\"k\": a if",
        "expected close brace, found keyword",
        11,
        13,
    ),
    ("{{ {\"k\": a", "expected close brace, found EOF", 10, 10),
    (
        "{{ {\"k\": a.b b",
        "expected close brace, found identifier",
        13,
        14,
    ),
    (
        "{{ {\"k\": a.b if",
        "expected close brace, found keyword",
        13,
        15,
    ),
    ("{{ {\"k\": a.b", "expected close brace, found EOF", 12, 12),
    (
        "{{ {\"k\": 1 b",
        "expected close brace, found identifier",
        11,
        12,
    ),
    (
        "{{ {\"k\": 1 if",
        "expected close brace, found keyword",
        11,
        13,
    ),
    ("{{ {\"k\": 1", "expected close brace, found EOF", 10, 10),
];

#[test]
fn refused_in_brackets(rt: HostRuntime) -> Result<(), Fail> {
    all_refused(&rt, rt.alloc(), &Searcher::new(), IN_BRACKETS)
}
