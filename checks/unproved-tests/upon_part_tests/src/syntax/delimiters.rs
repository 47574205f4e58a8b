// Syntaxes whose delimiters meet one another, blanks or names; texts under five of them that are refused, and
// texts with their instructions.
use crate::syntax::parsing::outcomes::{Program, Refusal, all_accepted, all_refused};
use std::alloc::{AllocError, Global};
use std::process::Abort;
use std::test::Fail;
use upon_syntax::compile::search::Searcher;
use upon_syntax::types::syntax::Syntax;

/// Delimiters that begin others.
pub fn overlapping(alloc: Global) -> Result<Syntax, AllocError> {
    Syntax::builder()
        .expr("{", "}")
        .block("{%", "%}")
        .comment("{{", "}}")
        .build(alloc)
}

/// Delimiters of several kinds with one text.
pub fn equal(alloc: Global) -> Result<Syntax, AllocError> {
    Syntax::builder()
        .expr("{{", "}}")
        .block("{{", "}}")
        .comment("{%", "{%")
        .build(alloc)
}

/// Delimiters of one byte.
pub fn one_byte(alloc: Global) -> Result<Syntax, AllocError> {
    Syntax::builder()
        .expr("{", "}")
        .block("%", "%")
        .comment("#", "#")
        .build(alloc)
}

/// Delimiters with a blank.
pub fn with_a_blank(alloc: Global) -> Result<Syntax, AllocError> {
    Syntax::builder()
        .expr("{{ ", " }}")
        .block("{% ", " %}")
        .comment(" #", "# ")
        .build(alloc)
}

/// Delimiters that names could begin with.
pub fn letters(alloc: Global) -> Result<Syntax, AllocError> {
    Syntax::builder()
        .expr("a", "b")
        .block("if", "end")
        .comment("x", "é")
        .build(alloc)
}

/// Returns an end that is its begin twice.
pub fn longer_end(alloc: Global) -> Result<Syntax, AllocError> {
    Syntax::builder().expr("<", "<<").build(alloc)
}

/// Delimiters that are hyphens alone, as are those that trim.
pub fn hyphens(alloc: Global) -> Result<Syntax, AllocError> {
    Syntax::builder().expr("-", "--").build(alloc)
}

/// Expressions and blocks with the same delimiters.
pub fn equal_blocks(alloc: Global) -> Result<Syntax, AllocError> {
    Syntax::builder()
        .expr("{{", "}}")
        .block("{{", "}}")
        .build(alloc)
}

/// Returns a begin that begins with a blank.
pub fn blank_before(alloc: Global) -> Result<Syntax, AllocError> {
    Syntax::builder().expr(" <", ">").build(alloc)
}

// Under the syntax these texts have these instructions, and these are refused.
fn all_under(
    rt: &impl Abort,
    alloc: Global,
    syntax: Syntax,
    programs: &[Program],
    refusals: &[Refusal],
) -> Result<(), Fail> {
    let searcher = Searcher::with_syntax(syntax);
    all_accepted(rt, alloc, &searcher, programs)?;
    all_refused(rt, alloc, &searcher, refusals)
}

const OVERLAPPING_PROGRAMS: &[Program] = &[
    ("{ c }", "var <c> .c<c>\nemit\n"),
    ("{{ c }}", ""),
    ("x {- c -} y", "raw <x>\nvar <c> .c<c>\nemit\nraw <y>\n"),
    (
        "{% if c %}x{% endif %}",
        "var <c> .c<c>\njump if false 3\nraw <x>\n",
    ),
];

const OVERLAPPING_REFUSALS: &[Refusal] = &[
    ("{{c}", "unexpected end expression", 3, 4),
    ("{ c }}", "unexpected end comment", 4, 6),
    ("{ {% }", "unclosed begin expression", 0, 1),
];

#[test]
fn under_overlapping(rt: HostRuntime) -> Result<(), Fail> {
    let syntax = overlapping(rt.alloc())?;
    all_under(
        &rt,
        rt.alloc(),
        syntax,
        OVERLAPPING_PROGRAMS,
        OVERLAPPING_REFUSALS,
    )
}

const EQUAL_PROGRAMS: &[Program] = &[("{{ c }}", "var <c> .c<c>\nemit\n"), ("{% c -{%", "")];

const EQUAL_REFUSALS: &[Refusal] = &[
    ("{{ if", "unexpected keyword `if`", 3, 5),
    ("{% c {%", "unclosed begin comment", 0, 2),
];

#[test]
fn under_equal(rt: HostRuntime) -> Result<(), Fail> {
    let syntax = equal(rt.alloc())?;
    all_under(&rt, rt.alloc(), syntax, EQUAL_PROGRAMS, EQUAL_REFUSALS)
}

const ONE_BYTE_PROGRAMS: &[Program] = &[
    ("{c}", "var <c> .c<c>\nemit\n"),
    (
        "% if c -% x% endif -%",
        "var <c> .c<c>\njump if false 3\nraw <x>\n",
    ),
    ("# c -#", ""),
];

const ONE_BYTE_REFUSALS: &[Refusal] = &[
    ("% if c %", "unclosed begin block", 0, 1),
    ("# c #", "unclosed begin comment", 0, 1),
    ("c }", "unexpected end expression", 2, 3),
];

#[test]
fn under_one_byte(rt: HostRuntime) -> Result<(), Fail> {
    let syntax = one_byte(rt.alloc())?;
    all_under(
        &rt,
        rt.alloc(),
        syntax,
        ONE_BYTE_PROGRAMS,
        ONE_BYTE_REFUSALS,
    )
}

const BLANK_PROGRAMS: &[Program] = &[
    ("{{ c }}", "var <c> .c<c>\nemit\n"),
    ("{{c}}", "raw <{{c}}>\n"),
    ("x {{ - c - }} y", "raw <x>\nvar <c> .c<c>\nemit\nraw <y>\n"),
];

const BLANK_REFUSALS: &[Refusal] = &[
    ("{{ c}}", "unexpected close brace", 4, 5),
    ("{{ c  }}", "unexpected close brace", 6, 7),
    ("{{ c", "expected end expression, found EOF", 4, 4),
];

#[test]
fn under_with_a_blank(rt: HostRuntime) -> Result<(), Fail> {
    let syntax = with_a_blank(rt.alloc())?;
    all_under(&rt, rt.alloc(), syntax, BLANK_PROGRAMS, BLANK_REFUSALS)
}

const LETTERS_PROGRAMS: &[Program] = &[
    ("a c b", "var <c> .c<c>\nemit\n"),
    ("c a- d -b e", "raw <c>\nvar <d> .d<d>\nemit\nraw <e>\n"),
    ("if include \"t\"end", "include <\"t\"> t\n"),
    ("x c é", ""),
];

const LETTERS_REFUSALS: &[Refusal] = &[
    ("acb", "expected end expression, found EOF", 3, 3),
    ("if if c end", "unclosed begin block", 0, 2),
    ("é", "unexpected end comment", 0, 2),
];

#[test]
fn under_letters(rt: HostRuntime) -> Result<(), Fail> {
    let syntax = letters(rt.alloc())?;
    all_under(&rt, rt.alloc(), syntax, LETTERS_PROGRAMS, LETTERS_REFUSALS)
}

const END_WITH_A_BLANK: &[Program] = &[(
    "<% 1 %>   <%- 2 %> ",
    "literal <1> 1\nemit\nraw <>\nliteral <2> 2\nemit\n",
)];

#[test]
fn trimming_stops_at_an_end_with_a_blank(rt: HostRuntime) -> Result<(), Fail> {
    let syntax = Syntax::builder().expr("<%", "%> ").build(rt.alloc())?;
    all_under(&rt, rt.alloc(), syntax, END_WITH_A_BLANK, &[])
}

const ONE_TEXT_PROGRAMS: &[Program] = &[("%% c -%%", "var <c> .c<c>\nemit\n")];

const ONE_TEXT_REFUSALS: &[Refusal] = &[("%% c %%", "unclosed begin expression", 0, 2)];

#[test]
fn begin_and_end_with_one_text(rt: HostRuntime) -> Result<(), Fail> {
    let syntax = Syntax::builder().expr("%%", "%%").build(rt.alloc())?;
    all_under(
        &rt,
        rt.alloc(),
        syntax,
        ONE_TEXT_PROGRAMS,
        ONE_TEXT_REFUSALS,
    )
}
