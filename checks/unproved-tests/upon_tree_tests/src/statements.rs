// Statements that nest deep.
use crate::parts::{PLACE, name, number, one, row};
use std::alloc::{AllocError, Global};
use std::test::Fail;
use upon_tree::ast::{
    BaseExpr, Expr, ForLoop, IfElse, InlineExpr, List, LoopVars, Scope, Stmt, Template, With,
};

// How deep the trees are: so deep that a drop that calls itself would end the call stack.
const DEPTH: usize = 30_000; // ./test: 10_000

// What a statement is put into.
#[derive(Clone, Copy, Drop)]
enum Kind {
    Then,
    Else,
    OnlyElse,
    For,
    ForElse,
    With,
}

const KINDS: &[Kind] = &[
    Kind::Then,
    Kind::Else,
    Kind::OnlyElse,
    Kind::For,
    Kind::ForElse,
    Kind::With,
];

// An expression that is shown, with a list in it.
fn inline(alloc: Global) -> Result<Stmt, AllocError> {
    Ok(Stmt::InlineExpr(InlineExpr {
        expr: Expr::Base(BaseExpr::List(List {
            items: row(alloc, number())?,
            span: PLACE,
        })),
        span: PLACE,
    }))
}

// The statement between others.
fn scope(alloc: Global, stmt: Stmt) -> Result<Scope, AllocError> {
    let mut scope = Scope::new(alloc);
    scope.stmts.push(Stmt::Raw(PLACE))?;
    scope.stmts.push(stmt)?;
    scope.stmts.push(inline(alloc)?)?;
    Ok(scope)
}

fn if_else(then_branch: Scope, else_branch: Option<Scope>) -> Stmt {
    Stmt::IfElse(IfElse {
        not: false,
        cond: one(),
        then_branch,
        else_branch,
    })
}

fn for_loop(alloc: Global, body: Scope, else_branch: Option<Scope>) -> Result<Stmt, AllocError> {
    Ok(Stmt::ForLoop(ForLoop {
        vars: LoopVars::Item(name(alloc)?),
        iterable: one(),
        body,
        else_branch,
    }))
}

fn wrapped(alloc: Global, kind: Kind, stmt: Stmt) -> Result<Stmt, AllocError> {
    let inside = scope(alloc, stmt)?;
    match kind {
        Kind::Then => Ok(if_else(inside, None)),
        Kind::Else => Ok(if_else(scope(alloc, Stmt::Raw(PLACE))?, Some(inside))),
        Kind::OnlyElse => Ok(if_else(Scope::new(alloc), Some(inside))),
        Kind::For => for_loop(alloc, inside, None),
        Kind::ForElse => for_loop(alloc, scope(alloc, inline(alloc)?)?, Some(inside)),
        Kind::With => Ok(Stmt::With(With {
            expr: one(),
            name: name(alloc)?,
            body: inside,
        })),
    }
}

// A statement that has each kind in turn, one in the other.
fn deep(alloc: Global, kinds: &[Kind]) -> Result<Stmt, AllocError> {
    let mut stmt = Stmt::Raw(PLACE);
    for level in 0..DEPTH {
        stmt = wrapped(alloc, kinds[level % kinds.len()], stmt)?;
    }
    Ok(stmt)
}

#[test]
fn then_branches(rt: HostRuntime) -> Result<(), Fail> {
    drop(deep(rt.alloc(), &[Kind::Then])?);
    Ok(())
}

#[test]
fn else_branches(rt: HostRuntime) -> Result<(), Fail> {
    drop(deep(rt.alloc(), &[Kind::Else])?);
    drop(deep(rt.alloc(), &[Kind::OnlyElse])?);
    Ok(())
}

#[test]
fn loops(rt: HostRuntime) -> Result<(), Fail> {
    drop(deep(rt.alloc(), &[Kind::For])?);
    drop(deep(rt.alloc(), &[Kind::ForElse])?);
    Ok(())
}

#[test]
fn withs(rt: HostRuntime) -> Result<(), Fail> {
    drop(deep(rt.alloc(), &[Kind::With])?);
    Ok(())
}

#[test]
fn templates_of_all_in_turn(rt: HostRuntime) -> Result<(), Fail> {
    let alloc = rt.alloc();
    let scope = scope(alloc, deep(alloc, KINDS)?)?;
    drop(Template { scope });
    Ok(())
}

#[test]
fn long_templates(rt: HostRuntime) -> Result<(), Fail> {
    let alloc = rt.alloc();
    let mut scope = Scope::new(alloc);
    for _level in 0..DEPTH {
        scope.stmts.push(inline(alloc)?)?;
        scope.stmts.push(Stmt::Raw(PLACE))?;
    }
    drop(scope);
    Ok(())
}
