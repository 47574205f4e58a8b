// Texts that are refused inside an expression.
// There are three texts for each point: a wrong token, a wrong keyword, and the text's end there.
use crate::syntax::parsing::outcomes::{Refusal, all_refused};
use std::test::Fail;
use upon_syntax::compile::search::Searcher;

/// Inside an expression.
pub static INSIDE: &[Refusal] = &[
    ("{{ a. :", "expected identifier or index, found colon", 6, 7),
    (
        "{{ a. if",
        "expected identifier or index, found keyword",
        6,
        8,
    ),
    ("{{ a.", "expected token, found EOF", 5, 5),
    ("{{ - b", "expected number, found identifier", 5, 6),
    ("{{ - if", "expected number, found keyword", 5, 7),
    ("{{ -", "expected number, found EOF", 4, 4),
    ("{{ ( :", "expected expression, found colon", 5, 6),
    ("{{ ( if", "unexpected keyword `if`", 5, 7),
    ("{{ (", "expected token, found EOF", 4, 4),
    ("{{ f( :", "expected expression, found colon", 6, 7),
    ("{{ f( if", "unexpected keyword `if`", 6, 8),
    ("{{ f(", "expected token, found EOF", 5, 5),
    ("{{ f(1, :", "expected expression, found colon", 8, 9),
    ("{{ f(1, if", "unexpected keyword `if`", 8, 10),
    ("{{ f(1,", "expected token, found EOF", 7, 7),
    ("{{ [ :", "expected expression, found colon", 5, 6),
    ("{{ [ if", "unexpected keyword `if`", 5, 7),
    ("{{ [", "expected token, found EOF", 4, 4),
    ("{{ [1, :", "expected expression, found colon", 7, 8),
    ("{{ [1, if", "unexpected keyword `if`", 7, 9),
    ("{{ [1,", "expected token, found EOF", 6, 6),
    ("{{ { b", "expected string, found identifier", 5, 6),
    ("{{ { if", "expected string, found keyword", 5, 7),
    ("{{ {", "expected string, found EOF", 4, 4),
    ("{{ {\"k\" b", "expected colon, found identifier", 8, 9),
    ("{{ {\"k\" if", "expected colon, found keyword", 8, 10),
    ("{{ {\"k\"", "expected colon, found EOF", 7, 7),
    ("{{ {\"k\": :", "expected expression, found colon", 9, 10),
    ("{{ {\"k\": if", "unexpected keyword `if`", 9, 11),
    ("{{ {\"k\":", "expected token, found EOF", 8, 8),
    (
        "{{ {\"k\": 1, b",
        "expected string, found identifier",
        12,
        13,
    ),
    ("{{ {\"k\": 1, if", "expected string, found keyword", 12, 14),
    ("{{ {\"k\": 1,", "expected string, found EOF", 11, 11),
    ("{{ 1 | :", "expected identifier, found colon", 7, 8),
    ("{{ 1 | if", "expected identifier, found keyword", 7, 9),
    ("{{ 1 |", "expected identifier, found EOF", 6, 6),
    ("{{ 1 | f: :", "expected expression, found colon", 10, 11),
    ("{{ 1 | f: if", "unexpected keyword `if`", 10, 12),
    ("{{ 1 | f:", "expected token, found EOF", 9, 9),
    ("{{ 1 | f: 1, :", "expected expression, found colon", 13, 14),
    ("{{ 1 | f: 1, if", "unexpected keyword `if`", 13, 15),
    ("{{ 1 | f: 1,", "expected token, found EOF", 12, 12),
];

#[test]
fn refused_inside(rt: HostRuntime) -> Result<(), Fail> {
    all_refused(&rt, rt.alloc(), &Searcher::new(), INSIDE)
}
