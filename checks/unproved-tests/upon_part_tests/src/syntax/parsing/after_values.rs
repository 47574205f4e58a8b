// Texts that are refused after a value that stands in no brackets.
// There are three texts for each point: a wrong token, a wrong keyword, and the text's end there.
use crate::syntax::parsing::outcomes::{Refusal, all_refused};
use std::test::Fail;
use upon_syntax::compile::search::Searcher;

/// After a value in an inline expression, a condition, an iterable or the context of an include.
pub static AFTER_VALUE: &[Refusal] = &[
    ("{{ a b", "expected end expression, found identifier", 5, 6),
    ("{{ a if", "expected end expression, found keyword", 5, 7),
    ("{{ a", "expected end expression, found EOF", 4, 4),
    (
        "{{ a.b b",
        "expected end expression, found identifier",
        7,
        8,
    ),
    ("{{ a.b if", "expected end expression, found keyword", 7, 9),
    ("{{ a.b", "expected end expression, found EOF", 6, 6),
    ("{{ 1 b", "expected end expression, found identifier", 5, 6),
    ("{{ 1 if", "expected end expression, found keyword", 5, 7),
    ("{{ 1", "expected end expression, found EOF", 4, 4),
    (
        "{{ 1 | f b",
        "expected end expression, found identifier",
        9,
        10,
    ),
    (
        "{{ 1 | f if",
        "expected end expression, found keyword",
        9,
        11,
    ),
    ("{{ 1 | f", "expected end expression, found EOF", 8, 8),
    (
        "{{ 1 | f: a b",
        "expected end expression, found identifier",
        12,
        13,
    ),
    (
        "{{ 1 | f: a if",
        "expected end expression, found keyword",
        12,
        14,
    ),
    ("{{ 1 | f: a", "expected end expression, found EOF", 11, 11),
    (
        "{{ 1 | f: a.b b",
        "expected end expression, found identifier",
        14,
        15,
    ),
    (
        "{{ 1 | f: a.b if",
        "expected end expression, found keyword",
        14,
        16,
    ),
    (
        "{{ 1 | f: a.b",
        "expected end expression, found EOF",
        13,
        13,
    ),
    (
        "{{ 1 | f: 1 b",
        "expected end expression, found identifier",
        12,
        13,
    ),
    (
        "{{ 1 | f: 1 if",
        "expected end expression, found keyword",
        12,
        14,
    ),
    ("{{ 1 | f: 1", "expected end expression, found EOF", 11, 11),
    ("{% if a b", "expected end block, found identifier", 8, 9),
    ("{% if a if", "expected end block, found keyword", 8, 10),
    ("{% if a", "expected end block, found EOF", 7, 7),
    (
        "{% if a.b b",
        "expected end block, found identifier",
        10,
        11,
    ),
    ("{% if a.b if", "expected end block, found keyword", 10, 12),
    ("{% if a.b", "expected end block, found EOF", 9, 9),
    (
        "{% for x in 1 b",
        "expected end block, found identifier",
        14,
        15,
    ),
    (
        "{% for x in 1 if",
        "expected end block, found keyword",
        14,
        16,
    ),
    ("{% for x in 1", "expected end block, found EOF", 13, 13),
    (
        "{% if 1 | f b",
        "expected end block, found identifier",
        12,
        13,
    ),
    (
        "{% if 1 | f if",
        "expected end block, found keyword",
        12,
        14,
    ),
    ("{% if 1 | f", "expected end block, found EOF", 11, 11),
    (
        "{% if 1 | f: a b",
        "expected end block, found identifier",
        15,
        16,
    ),
    (
        "{% if 1 | f: a if",
        "expected end block, found keyword",
        15,
        17,
    ),
    ("{% if 1 | f: a", "expected end block, found EOF", 14, 14),
    (
        "{% if 1 | f: a.b b",
        "expected end block, found identifier",
        17,
        18,
    ),
    (
        "{% if 1 | f: a.b if",
        "expected end block, found keyword",
        17,
        19,
    ),
    ("{% if 1 | f: a.b", "expected end block, found EOF", 16, 16),
    (
        "{% if 1 | f: 1 b",
        "expected end block, found identifier",
        15,
        16,
    ),
    (
        "{% if 1 | f: 1 if",
        "expected end block, found keyword",
        15,
        17,
    ),
    ("{% if 1 | f: 1", "expected end block, found EOF", 14, 14),
];

/// After a value in a `with`.
pub static AFTER_WITH: &[Refusal] = &[
    ("{% with a b", "expected keyword, found identifier", 10, 11),
    (
        "{% with a in",
        "expected keyword `as`, found keyword `in`",
        10,
        12,
    ),
    ("{% with a", "expected keyword, found EOF", 9, 9),
    (
        "{% with a.b b",
        "expected keyword, found identifier",
        12,
        13,
    ),
    (
        "{% with a.b in",
        "expected keyword `as`, found keyword `in`",
        12,
        14,
    ),
    ("{% with a.b", "expected keyword, found EOF", 11, 11),
    ("{% with 1 b", "expected keyword, found identifier", 10, 11),
    (
        "{% with 1 in",
        "expected keyword `as`, found keyword `in`",
        10,
        12,
    ),
    ("{% with 1", "expected keyword, found EOF", 9, 9),
    (
        "{% with 1 | f b",
        "expected keyword, found identifier",
        14,
        15,
    ),
    (
        "{% with 1 | f in",
        "expected keyword `as`, found keyword `in`",
        14,
        16,
    ),
    ("{% with 1 | f", "expected keyword, found EOF", 13, 13),
    (
        "{% with 1 | f: a b",
        "expected keyword, found identifier",
        17,
        18,
    ),
    (
        "{% with 1 | f: a in",
        "expected keyword `as`, found keyword `in`",
        17,
        19,
    ),
    ("{% with 1 | f: a", "expected keyword, found EOF", 16, 16),
    (
        "{% with 1 | f: a.b b",
        "expected keyword, found identifier",
        19,
        20,
    ),
    (
        "{% with 1 | f: a.b in",
        "expected keyword `as`, found keyword `in`",
        19,
        21,
    ),
    ("{% with 1 | f: a.b", "expected keyword, found EOF", 18, 18),
    (
        "{% with 1 | f: 1 b",
        "expected keyword, found identifier",
        17,
        18,
    ),
    (
        "{% with 1 | f: 1 in",
        "expected keyword `as`, found keyword `in`",
        17,
        19,
    ),
    ("{% with 1 | f: 1", "expected keyword, found EOF", 16, 16),
];

#[test]
fn refused_after_value(rt: HostRuntime) -> Result<(), Fail> {
    all_refused(&rt, rt.alloc(), &Searcher::new(), AFTER_VALUE)
}

#[test]
fn refused_after_with(rt: HostRuntime) -> Result<(), Fail> {
    all_refused(&rt, rt.alloc(), &Searcher::new(), AFTER_WITH)
}
