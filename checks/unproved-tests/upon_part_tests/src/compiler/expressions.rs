// Expressions: what they leave, and what is shown.
use crate::compiler::rows::{Row, all_compiled};
use std::test::Fail;

const EXPRESSIONS: &[Row] = &[
    ("{{ a }}", "var .a\nemit\n"),
    // A list in a list.
    (
        "{{ [1, [a]] }}",
        "list 3..11\nliteral 1\nlist push\nlist 7..10\nvar .a\nlist push\nlist push\nemit\n",
    ),
    // A map with equal keys.
    (
        "{{ {\"k\": 1, \"k\": 2} }}",
        "map 3..19\nliteral 1\nmap insert k\nliteral 2\nmap insert k\nemit\n",
    ),
    // A call in a call: the outer call is shown where it is applied, the inner one leaves its value.
    (
        "{{ f(1, g(2)) }}",
        "literal 1\nliteral 2\napply g 1 8..12\nemit with f 2 3..13\n",
    ),
    // A filter in parentheses, which change nothing.
    ("{{ (a | f) }}", "var .a\nemit with f 1 4..9\n"),
    // A filter of a filter: the inner one leaves its value.
    (
        "{{ a | f | g }}",
        "var .a\napply f 1 3..8\nemit with g 1 3..12\n",
    ),
    // Brackets of several kinds in each other.
    (
        "{{ [1, [a, {}], b.c] }}",
        "list 3..20\nliteral 1\nlist push\nlist 7..14\nvar .a\nlist push\nmap 11..13\nlist push\n\
         list push\nvar .b .c\nlist push\nemit\n",
    ),
    (
        "{{ {\"k\": a, \"l\": [b]} }}",
        "map 3..21\nvar .a\nmap insert k\nlist 17..20\nvar .b\nlist push\nmap insert l\nemit\n",
    ),
    ("{{ f() }}", "emit with f 0 3..6\n"),
    ("{{ ((f(a))) }}", "var .a\nemit with f 1 5..9\n"),
    (
        "{{ a | f | g: b, c }}",
        "var .a\napply f 1 3..8\nvar .b\nvar .c\nemit with g 3 3..18\n",
    ),
    (
        "{{ (a | f: b | g) | h: (c | i), [d] }}",
        "var .a\nvar .b\napply f 2 4..12\napply g 1 4..16\nvar .c\napply i 1 24..29\nlist 32..35\n\
         var .d\nlist push\nemit with h 3 3..35\n",
    ),
];

#[test]
fn expressions(rt: HostRuntime) -> Result<(), Fail> {
    all_compiled(&rt, rt.alloc(), EXPRESSIONS)
}
