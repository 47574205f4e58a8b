// Pieces of templates, and the texts of the trees that builders make of them.
use crate::pieces::Piece::{self, *};
use crate::pieces::text_of;
use std::alloc::Global;
use std::process::Abort;
use std::test::Fail;

/// The pieces of a template, and the text of its tree.
type Row = (&'static [Piece], &'static str);

fn all_listed(rt: &impl Abort, alloc: Global, rows: &[Row]) -> Result<(), Fail> {
    for (pieces, wanted) in rows {
        let text = text_of(alloc, pieces)?;
        assert_eq!(rt; text.as_str(), *wanted);
    }
    Ok(())
}

const SINGLE: &[Row] = &[
    (&[], ""),
    (&[Raw("a")], "raw<a>"),
    (&[Raw("a"), Raw("bc"), Raw("d")], "raw<a> raw<bc> raw<d>"),
    (&[Show("b", "abc")], "show<abc> 1<b>"),
    (&[Include("a")], "include a<a>"),
    (&[IncludeWith("a", "b")], "include a<a> with 1<b>"),
    (
        &[
            Raw("a"),
            Show("c", "bcd"),
            Include("e"),
            IncludeWith("f", "g"),
            Raw("h"),
        ],
        "raw<a> show<bcd> 1<c> include e<e> include f<f> with 1<g> raw<h>",
    ),
];

#[test]
fn single(rt: HostRuntime) -> Result<(), Fail> {
    all_listed(&rt, rt.alloc(), SINGLE)
}

const BLOCKS: &[Row] = &[
    (&[If("a"), End], "if 1<a> {}"),
    (
        &[IfNot("a"), Raw("b"), End, Raw("c")],
        "if not 1<a> {raw<b>} raw<c>",
    ),
    (&[If("a"), Else, End], "if 1<a> {} else {}"),
    (
        &[
            Raw("a"),
            If("b"),
            Raw("c"),
            Raw("d"),
            Else,
            Raw("e"),
            Raw("f"),
            End,
            Raw("g"),
        ],
        "raw<a> if 1<b> {raw<c> raw<d>} else {raw<e> raw<f>} raw<g>",
    ),
    (
        &[IfNot("a"), Raw("b"), Else, End],
        "if not 1<a> {raw<b>} else {}",
    ),
    (&[For("a", "b"), Raw("c"), End], "for a<a> in 1<b> {raw<c>}"),
    (
        &[
            ForTwo("a", "b", "c"),
            Raw("d"),
            Else,
            Raw("e"),
            End,
            Raw("f"),
        ],
        "for a<a>, b<b>@<ab> in 1<c> {raw<d>} else {raw<e>} raw<f>",
    ),
    (&[For("a", "b"), Else, End], "for a<a> in 1<b> {} else {}"),
    (
        &[With("a", "b"), Raw("c"), End, Raw("d")],
        "with 1<a> as b<b> {raw<c>} raw<d>",
    ),
    (&[With("a", "b"), End], "with 1<a> as b<b> {}"),
];

#[test]
fn blocks(rt: HostRuntime) -> Result<(), Fail> {
    all_listed(&rt, rt.alloc(), BLOCKS)
}

const ELSE_IFS: &[Row] = &[
    (
        &[If("a"), Raw("b"), ElseIf("c"), Raw("d"), End, Raw("e")],
        "if 1<a> {raw<b>} else {if 1<c> {raw<d>}} raw<e>",
    ),
    (
        &[
            If("a"),
            Raw("b"),
            ElseIfNot("c"),
            Raw("d"),
            Else,
            Raw("e"),
            End,
            Raw("f"),
        ],
        "if 1<a> {raw<b>} else {if not 1<c> {raw<d>} else {raw<e>}} raw<f>",
    ),
    (
        &[
            Raw("a"),
            IfNot("b"),
            ElseIf("c"),
            ElseIf("d"),
            Else,
            Raw("e"),
            End,
            Raw("f"),
        ],
        "raw<a> if not 1<b> {} else {if 1<c> {} else {if 1<d> {} else {raw<e>}}} raw<f>",
    ),
    (
        &[
            For("a", "b"),
            Raw("c"),
            ElseIf("d"),
            Raw("e"),
            End,
            Raw("f"),
        ],
        "for a<a> in 1<b> {raw<c>} else {if 1<d> {raw<e>}} raw<f>",
    ),
];

#[test]
fn else_ifs(rt: HostRuntime) -> Result<(), Fail> {
    all_listed(&rt, rt.alloc(), ELSE_IFS)
}

const NESTED: &[Row] = &[
    (
        &[If("a"), If("b"), Raw("c"), End, End, Raw("d")],
        "if 1<a> {if 1<b> {raw<c>}} raw<d>",
    ),
    (
        &[
            If("a"),
            For("b", "c"),
            Raw("d"),
            Else,
            Raw("e"),
            End,
            Raw("f"),
            Else,
            With("g", "h"),
            Show("j", "ijk"),
            End,
            Raw("l"),
            End,
            Raw("m"),
        ],
        "if 1<a> {for b<b> in 1<c> {raw<d>} else {raw<e>} raw<f>} \
         else {with 1<g> as h<h> {show<ijk> 1<j>} raw<l>} raw<m>",
    ),
    (
        &[
            If("a"),
            ElseIf("b"),
            If("c"),
            ElseIf("d"),
            End,
            Raw("e"),
            Else,
            If("f"),
            Raw("g"),
            End,
            End,
            Raw("h"),
        ],
        "if 1<a> {} else {if 1<b> {if 1<c> {} else {if 1<d> {}} raw<e>} else {if 1<f> {raw<g>}}} raw<h>",
    ),
    (
        &[
            With("a", "b"),
            Raw("c"),
            If("d"),
            Raw("e"),
            Else,
            Raw("f"),
            End,
            Raw("g"),
            End,
        ],
        "with 1<a> as b<b> {raw<c> if 1<d> {raw<e>} else {raw<f>} raw<g>}",
    ),
];

#[test]
fn nested(rt: HostRuntime) -> Result<(), Fail> {
    all_listed(&rt, rt.alloc(), NESTED)
}

// An end without a block changes nothing, and the tree of open blocks is that of the innermost one.
const UNFINISHED: &[Row] = &[
    (&[End], ""),
    (&[Raw("a"), End, Raw("b")], "raw<a> raw<b>"),
    (&[Raw("a"), If("b"), Raw("c")], "raw<c>"),
    (&[Raw("a"), If("b"), Raw("c"), Else, Raw("d")], "raw<d>"),
    (
        &[Raw("a"), If("b"), Raw("c"), ElseIf("d"), Raw("e")],
        "raw<e>",
    ),
];

#[test]
fn unfinished(rt: HostRuntime) -> Result<(), Fail> {
    all_listed(&rt, rt.alloc(), UNFINISHED)
}
