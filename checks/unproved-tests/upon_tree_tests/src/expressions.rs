// Expressions that nest deep.
use crate::parts::{PLACE, arguments, name, number, one, row};
use std::alloc::{AllocError, Global};
use std::test::Fail;
use upon_tree::ast::{BaseExpr, Call, Expr, Filter, List, Map, Paren, String};

// How deep the trees are: so deep that a drop that calls itself would end the call stack.
const DEPTH: usize = 30_000; // ./test: 10_000

// What an expression is put into.
#[derive(Clone, Copy, Drop)]
enum Kind {
    List,
    Map,
    Paren,
    Call,
    Receiver,
    Argument,
    Both,
}

const KINDS: &[Kind] = &[
    Kind::List,
    Kind::Map,
    Kind::Paren,
    Kind::Call,
    Kind::Receiver,
    Kind::Argument,
    Kind::Both,
];

fn paren(alloc: Global, expr: Expr) -> Result<BaseExpr, AllocError> {
    Ok(BaseExpr::Paren(Paren {
        expr: Box::new(alloc, expr)?,
        span: PLACE,
    }))
}

fn key(alloc: Global) -> Result<String, AllocError> {
    Ok(String {
        value: std::string::String::from_str(alloc, "key")?,
        span: PLACE,
    })
}

fn map(alloc: Global, base: BaseExpr) -> Result<BaseExpr, AllocError> {
    let mut items = Vec::new(alloc);
    items.push((key(alloc)?, number()))?;
    items.push((key(alloc)?, base))?;
    items.push((key(alloc)?, number()))?;
    Ok(BaseExpr::Map(Map { items, span: PLACE }))
}

fn call(alloc: Global, base: BaseExpr) -> Result<BaseExpr, AllocError> {
    Ok(BaseExpr::Call(Call {
        name: name(alloc)?,
        args: arguments(alloc, base)?,
        span: PLACE,
    }))
}

// A filter with the expression before it.
fn filtered(alloc: Global, expr: Expr) -> Result<Filter, AllocError> {
    Ok(Filter {
        name: name(alloc)?,
        args: None,
        receiver: Box::new(alloc, expr)?,
        span: PLACE,
    })
}

// A filter with the expressions before it and in its arguments.
fn filtered_by(alloc: Global, expr: Expr, base: BaseExpr) -> Result<Filter, AllocError> {
    Ok(Filter {
        name: name(alloc)?,
        args: arguments(alloc, base)?,
        receiver: Box::new(alloc, expr)?,
        span: PLACE,
    })
}

// Both sides of a filter: what is before it is one level deep.
fn both(alloc: Global, base: BaseExpr) -> Result<BaseExpr, AllocError> {
    let before = Expr::Filter(filtered(alloc, Expr::Base(call(alloc, number())?))?);
    paren(alloc, Expr::Filter(filtered_by(alloc, before, base)?))
}

fn wrapped(alloc: Global, kind: Kind, base: BaseExpr) -> Result<BaseExpr, AllocError> {
    match kind {
        Kind::List => Ok(BaseExpr::List(List {
            items: row(alloc, base)?,
            span: PLACE,
        })),
        Kind::Map => map(alloc, base),
        Kind::Paren => paren(alloc, Expr::Base(base)),
        Kind::Call => call(alloc, base),
        Kind::Receiver => paren(alloc, Expr::Filter(filtered(alloc, Expr::Base(base))?)),
        Kind::Argument => paren(alloc, Expr::Filter(filtered_by(alloc, one(), base)?)),
        Kind::Both => both(alloc, base),
    }
}

// An expression that has each kind in turn, one in the other.
fn deep(alloc: Global, kinds: &[Kind]) -> Result<BaseExpr, AllocError> {
    let mut base = number();
    for level in 0..DEPTH {
        base = wrapped(alloc, kinds[level % kinds.len()], base)?;
    }
    Ok(base)
}

#[test]
fn lists(rt: HostRuntime) -> Result<(), Fail> {
    drop(deep(rt.alloc(), &[Kind::List])?);
    Ok(())
}

#[test]
fn maps(rt: HostRuntime) -> Result<(), Fail> {
    drop(deep(rt.alloc(), &[Kind::Map])?);
    Ok(())
}

#[test]
fn parentheses(rt: HostRuntime) -> Result<(), Fail> {
    drop(deep(rt.alloc(), &[Kind::Paren])?);
    Ok(())
}

#[test]
fn calls(rt: HostRuntime) -> Result<(), Fail> {
    drop(deep(rt.alloc(), &[Kind::Call])?);
    Ok(())
}

#[test]
fn filters_in_parentheses(rt: HostRuntime) -> Result<(), Fail> {
    drop(deep(rt.alloc(), &[Kind::Receiver])?);
    Ok(())
}

#[test]
fn arguments_of_filters(rt: HostRuntime) -> Result<(), Fail> {
    drop(deep(rt.alloc(), &[Kind::Argument])?);
    drop(deep(rt.alloc(), &[Kind::Both])?);
    Ok(())
}

#[test]
fn all_in_turn(rt: HostRuntime) -> Result<(), Fail> {
    drop(deep(rt.alloc(), KINDS)?);
    Ok(())
}

#[test]
fn filters_in_a_row(rt: HostRuntime) -> Result<(), Fail> {
    let alloc = rt.alloc();
    let mut filter = filtered(alloc, one())?;
    for level in 0..DEPTH {
        filter = if level % 2 == 0 {
            filtered(alloc, Expr::Filter(filter))?
        } else {
            filtered_by(alloc, Expr::Filter(filter), call(alloc, number())?)?
        };
    }
    drop(filter);
    Ok(())
}

#[test]
fn deep_arguments_of_filters_in_a_row(rt: HostRuntime) -> Result<(), Fail> {
    let alloc = rt.alloc();
    let first = filtered_by(alloc, one(), deep(alloc, KINDS)?)?;
    let second = filtered_by(alloc, Expr::Filter(first), deep(alloc, &[Kind::List])?)?;
    drop(Expr::Filter(second));
    Ok(())
}

#[test]
fn long_lists(rt: HostRuntime) -> Result<(), Fail> {
    let alloc = rt.alloc();
    let mut items = Vec::new(alloc);
    for level in 0..DEPTH {
        items.push(if level % 3 == 0 {
            call(alloc, number())?
        } else {
            number()
        })?;
    }
    drop(List { items, span: PLACE });
    Ok(())
}
