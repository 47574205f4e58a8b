// Loops over what is lent take no memory for their items.
ghost use Rattle.std.specs.Prelude.{◌≡◌, map, IsTrue};
ghost use Rattle.upon_types.specs.AstPath.{loop_vars_of, member_of, rest_members};
ghost use Rattle.upon_types.specs.Span.{LiesIn};
ghost use Rattle.upon_render.specs.Loop.{names_span};
ghost use Rattle.upon_render.specs.PathSpans.{MembersLieIn};

use crate::starved::{Hoard, is_starved};
use std::alloc::{AllocError, Global};
use std::process::Abort;
use std::test::Fail;
use upon_render::iter::LoopState;
use upon_types::error;
use upon_types::types::Span;
use upon_types::types::ast::{Access, AccessOp, Ident, LoopVars, Member, Name, Var};
use upon_types::value::{Value, ValueCow};

const SOURCE: &str = "{% for x in xs %}{{ x }}{% endfor %}";

const TEXT: &str =
    "0123456789012345678901234567890123456789012345678901234567890123456789012345678901234567890123456789";

// A list of 1,000 texts of 100 bytes.
fn texts(alloc: Global) -> Result<Value, AllocError> {
    let mut items = Vec::with_capacity(alloc, 1000)?;
    for _ in 0..1000u32 {
        items.push(Value::from_text(alloc, TEXT)?)?;
    }
    Ok(Value::List(items))
}

// The name `x`, where it begins at this offset.
fn ident(alloc: Global, m: usize) -> Result<Ident, AllocError> {
    let n = m.saturating_add(1);
    Ok(Ident {
        name: Name::from_str(alloc, "x")?,
        span: Span { m, n },
    })
}

// The path of that name alone.
fn path(alloc: Global, m: usize) -> Result<Vec<Member>, AllocError> {
    let ident = ident(alloc, m)?;
    let span = ident.span;
    let access = Access::Key(ident);
    let op = AccessOp::Direct;
    Ok(vec![in alloc; Member { op, access, span }]?)
}

// ---- spans that are tested before they are handed in
fn lies_in(source: &str, span: Span) -> bool
    ensures { IsTrue result → LiesIn source.now span }
{
    span.m <= span.n && source.is_char_boundary(span.m) && source.is_char_boundary(span.n)
}

fn all_lie_in(source: &str, path: &[Member]) -> bool
    ensures { IsTrue result → MembersLieIn source.now (map member_of path.now) }
{
    match path {
        [] => true,
        [first, rest @ ..] => lies_in(source, first.span) && all_lie_in(source, rest),
    }
}

fn names_place(vars: &LoopVars) -> Span
    ensures { result ≡ names_span (loop_vars_of vars.now) }
{
    match vars {
        LoopVars::Item(name) => name.span,
        LoopVars::KeyValue(both) => both.span,
    }
}

// A loop over these items, before the first one.
fn over<'a>(
    rt: &impl Abort,
    alloc: Global,
    vars: &'a LoopVars,
    iterable: ValueCow<'a>,
    span: Span,
) -> error::Result<LoopState<'a>> {
    assert!(rt; lies_in(SOURCE, span));
    assert!(rt; lies_in(SOURCE, names_place(vars)));
    LoopState::new(alloc, SOURCE, vars, iterable, span)
}

// Whether the path finds the text, and finds it lent.
fn finds_lent(alloc: Global, state: &LoopState<'_>, var: &Var) -> bool
    requires { MembersLieIn SOURCE.now (rest_members var.now) }
{
    match state.lookup_var(alloc, SOURCE, var) {
        Ok(Some(ValueCow::Borrowed(value))) => match value {
            Value::String(text) => text.as_str() == TEXT,
            _ => false,
        },
        _ => false,
    }
}

// How many items the loop has, each found lent.
fn count_lent(alloc: Global, state: &mut LoopState<'_>, var: &Var) -> u32
    requires { MembersLieIn SOURCE.now (rest_members var.now) }
{
    let mut count = 0u32;
    for _ in 0..2000u32 {
        if state.iterate().is_none() {
            break;
        }
        if finds_lent(alloc, state, var) {
            count = count.saturating_add(1);
        }
    }
    count
}

#[test]
fn a_lent_list_is_walked_without_memory(rt: HostRuntime) -> Result<(), Fail> {
    let alloc = rt.alloc();
    let items = texts(alloc)?;
    let vars = LoopVars::Item(ident(alloc, 7)?);
    let path = path(alloc, 20)?;
    assert!(rt; path.len() > 0);
    let var = Var { path };
    assert!(rt; all_lie_in(SOURCE, var.rest()));
    let mut hoard = Hoard::new(alloc)?;
    let before = is_starved(alloc, &mut hoard);
    let iterable = ValueCow::Borrowed(&items);
    let span = Span { m: 12, n: 14 };
    let mut state = over(&rt, alloc, &vars, iterable, span)?;
    let count = count_lent(alloc, &mut state, &var);
    let after = is_starved(alloc, &mut hoard);
    drop(hoard);
    assert!(rt; before && after);
    assert_eq!(rt; count, 1000);
    Ok(())
}
