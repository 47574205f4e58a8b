// Texts that are refused where a tag begins, or after one of its words.
// There are three texts for each point: a wrong token, a wrong keyword, and the text's end there.
use crate::syntax::parsing::outcomes::{Refusal, all_refused};
use std::test::Fail;
use upon_syntax::compile::search::Searcher;

/// Where a tag begins, and after each of its words.
pub static TAGS: &[Refusal] = &[
    ("{{ :", "expected expression, found colon", 3, 4),
    ("{{ if", "unexpected keyword `if`", 3, 5),
    ("{{", "expected token, found EOF", 2, 2),
    ("{% b", "expected keyword, found identifier", 3, 4),
    ("{% not", "unexpected keyword `not`", 3, 6),
    ("{%", "expected keyword, found EOF", 2, 2),
    ("{% if :", "expected expression, found colon", 6, 7),
    ("{% if if", "unexpected keyword `if`", 6, 8),
    ("{% if", "expected token, found EOF", 5, 5),
    ("{% if not :", "expected expression, found colon", 10, 11),
    ("{% if not if", "unexpected keyword `if`", 10, 12),
    ("{% if not", "expected token, found EOF", 9, 9),
    ("{% else b", "expected end block, found identifier", 8, 9),
    ("{% else as", "expected end block, found keyword", 8, 10),
    ("{% else", "expected end block, found EOF", 7, 7),
    ("{% endif b", "expected end block, found identifier", 9, 10),
    ("{% endif if", "expected end block, found keyword", 9, 11),
    ("{% endif", "expected end block, found EOF", 8, 8),
    ("{% for :", "expected identifier, found colon", 7, 8),
    ("{% for if", "expected identifier, found keyword", 7, 9),
    ("{% for", "expected identifier, found EOF", 6, 6),
    ("{% for x b", "expected keyword, found identifier", 9, 10),
    (
        "{% for x if",
        "expected keyword `in`, found keyword `if`",
        9,
        11,
    ),
    ("{% for x", "expected keyword, found EOF", 8, 8),
    ("{% for x, :", "expected identifier, found colon", 10, 11),
    ("{% for x, if", "expected identifier, found keyword", 10, 12),
    ("{% for x,", "expected identifier, found EOF", 9, 9),
    (
        "{% for x, y b",
        "expected keyword, found identifier",
        12,
        13,
    ),
    (
        "{% for x, y if",
        "expected keyword `in`, found keyword `if`",
        12,
        14,
    ),
    ("{% for x, y", "expected keyword, found EOF", 11, 11),
    ("{% for x in :", "expected expression, found colon", 12, 13),
    ("{% for x in if", "unexpected keyword `if`", 12, 14),
    ("{% for x in", "expected token, found EOF", 11, 11),
    ("{% with :", "expected expression, found colon", 8, 9),
    ("{% with if", "unexpected keyword `if`", 8, 10),
    ("{% with", "expected token, found EOF", 7, 7),
    ("{% with a as :", "expected identifier, found colon", 13, 14),
    (
        "{% with a as if",
        "expected identifier, found keyword",
        13,
        15,
    ),
    ("{% with a as", "expected identifier, found EOF", 12, 12),
    (
        "{% with a as b b",
        "expected end block, found identifier",
        15,
        16,
    ),
    (
        "{% with a as b if",
        "expected end block, found keyword",
        15,
        17,
    ),
    ("{% with a as b", "expected end block, found EOF", 14, 14),
    ("{% include b", "expected string, found identifier", 11, 12),
    ("{% include if", "expected string, found keyword", 11, 13),
    ("{% include", "expected string, found EOF", 10, 10),
    (
        "{% include \"t\" b",
        "expected end block, found identifier",
        15,
        16,
    ),
    (
        "{% include \"t\" if",
        "expected end block, found keyword",
        15,
        17,
    ),
    ("{% include \"t\"", "expected end block, found EOF", 14, 14),
    (
        "{% include \"t\" with :",
        "expected expression, found colon",
        20,
        21,
    ),
    (
        "{% include \"t\" with if",
        "unexpected keyword `if`",
        20,
        22,
    ),
    ("{% include \"t\" with", "expected token, found EOF", 19, 19),
];

#[test]
fn refused_tags(rt: HostRuntime) -> Result<(), Fail> {
    all_refused(&rt, rt.alloc(), &Searcher::new(), TAGS)
}
