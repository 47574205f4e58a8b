// Texts that are refused for their keywords, blocks or literals, and refused texts of several tags.
use crate::syntax::parsing::outcomes::{Refusal, all_refused};
use std::test::Fail;
use upon_syntax::compile::search::Searcher;

/// Keywords, blocks, literals, and texts of several tags.
pub static BLOCKS: &[Refusal] = &[
    ("{% in", "unexpected keyword `in`", 3, 5),
    ("{% as", "unexpected keyword `as`", 3, 5),
    ("{% true", "unexpected keyword `true`", 3, 7),
    ("{% false", "unexpected keyword `false`", 3, 8),
    ("{{ endif }}", "unexpected keyword `endif`", 3, 8),
    (
        "{% endfor b",
        "expected end block, found identifier",
        10,
        11,
    ),
    ("{% endfor if", "expected end block, found keyword", 10, 12),
    ("{% endfor", "expected end block, found EOF", 9, 9),
    (
        "{% endwith b",
        "expected end block, found identifier",
        11,
        12,
    ),
    ("{% endwith if", "expected end block, found keyword", 11, 13),
    ("{% endwith", "expected end block, found EOF", 10, 10),
    ("{% else if :", "expected expression, found colon", 11, 12),
    ("{% else if if", "unexpected keyword `if`", 11, 13),
    ("{% else if", "expected token, found EOF", 10, 10),
    ("{% else %}", "unexpected `else` block", 0, 10),
    ("{% endfor %}", "unexpected `endfor` block", 0, 12),
    ("a{%- endwith -%}b", "unexpected `endwith` block", 1, 16),
    (
        "{% if 1 %}{% endfor %}",
        "unexpected `endfor` block",
        10,
        22,
    ),
    (
        "{% for x in y %}{% endif %}",
        "unexpected `endif` block",
        16,
        27,
    ),
    (
        "{% for x in y %}{% endwith %}",
        "unexpected `endwith` block",
        16,
        29,
    ),
    (
        "{% with 1 as a %}{% else %}",
        "unexpected `else` block",
        17,
        27,
    ),
    (
        "{% if 1 %}{% else %}{% else %}",
        "unexpected `else` block",
        20,
        30,
    ),
    (
        "{% if 1 %}{% else %}{% else if 2 %}",
        "unexpected `else if` block",
        20,
        35,
    ),
    (
        "{% if 1 %}{% endif %}{% endif %}",
        "unexpected `endif` block",
        21,
        32,
    ),
    ("{% if 1 %}{% if 2 %}", "unclosed `if` block", 0, 10),
    ("{% for x in y %}", "unclosed `for` block", 0, 16),
    ("{% if 1 %}{% else %}", "unclosed `if` block", 0, 10),
    ("{% if 1 %}{% else if 2 %}", "unclosed `if` block", 0, 10),
    (
        "{% if 1 %}{% endif %}{% with 1 as a %}",
        "unclosed `with` block",
        21,
        38,
    ),
    ("{{ 0o8 }}", "invalid digit for base 8 literal", 5, 6),
    ("{{ 0xfg }}", "invalid digit for base 16 literal", 6, 7),
    ("{{ 1a }}", "invalid digit for base 10 literal", 4, 5),
    (
        "{{ 0x8000000000000000 }}",
        "base 16 literal out of range for 64-bit integer",
        3,
        21,
    ),
    (
        "{{ 0o1000000000000000000000 }}",
        "base 8 literal out of range for 64-bit integer",
        3,
        27,
    ),
    ("{{ 1-2 }}", "invalid float literal", 3, 6),
    ("{{ 1.5 }}", "invalid float literal", 3, 6),
    ("{{ \"é\\é\" }}", "unknown escape character", 7, 9),
    ("{% include \"\\q\" %}", "unknown escape character", 13, 14),
    ("{{ {\"\\q\": 1} }}", "unknown escape character", 6, 7),
    ("lorem { ipsum {{", "expected token, found EOF", 16, 16),
    (
        "lorem {{ -}}  {{- }} dolor",
        "expected expression, found end expression",
        9,
        12,
    ),
    (
        "lorem {{ [1, 3] {.} }} dolor",
        "expected end expression, found open brace",
        16,
        17,
    ),
    (
        "lorem ipsum {%- dolor -%} sit",
        "expected keyword, found identifier",
        16,
        21,
    ),
    (
        "lorem ipsum {##}",
        "expected raw template, found end comment",
        14,
        16,
    ),
];

#[test]
fn refused_blocks(rt: HostRuntime) -> Result<(), Fail> {
    all_refused(&rt, rt.alloc(), &Searcher::new(), BLOCKS)
}
