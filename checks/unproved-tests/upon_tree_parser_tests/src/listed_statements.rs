// The texts of statements: those of a branch are in braces.
use crate::listed_expressions::expr;
use crate::listing::Listing;
use std::alloc::AllocError;
use upon_tree::ast::{ForLoop, IfElse, Include, InlineExpr, Scope, Stmt, With};

/// Adds the texts of statements.
#[cycle(statement)]
pub fn statements(out: &mut Listing, scope: &Scope) -> Result<(), AllocError> {
    let mut separator = "";
    for stmt in &scope.stmts {
        out.add(separator)?;
        statement(out, stmt)?;
        separator = " ";
    }
    Ok(())
}

#[cycle(statement)]
fn statement(out: &mut Listing, tree: &Stmt) -> Result<(), AllocError> {
    match tree {
        Stmt::Raw(span) => out.add_at("raw", *span),
        Stmt::InlineExpr(inline) => shown(out, inline),
        Stmt::Include(include) => included(out, include),
        Stmt::IfElse(block) => if_else(out, block),
        Stmt::ForLoop(block) => for_loop(out, block),
        Stmt::With(block) => with(out, block),
    }
}

fn shown(out: &mut Listing, tree: &InlineExpr) -> Result<(), AllocError> {
    out.add_at("show", tree.span)?;
    out.add(" ")?;
    expr(out, &tree.expr)
}

fn included(out: &mut Listing, tree: &Include) -> Result<(), AllocError> {
    out.add("include ")?;
    out.quoted(&tree.name)?;
    match &tree.globals {
        None => Ok(()),
        Some(globals) => {
            out.add(" with ")?;
            expr(out, globals)
        }
    }
}

#[cycle(statement)]
fn if_else(out: &mut Listing, tree: &IfElse) -> Result<(), AllocError> {
    out.add(if tree.not { "if not " } else { "if " })?;
    expr(out, &tree.cond)?;
    branch(out, &tree.then_branch)?;
    other_branch(out, &tree.else_branch)
}

#[cycle(statement)]
fn for_loop(out: &mut Listing, tree: &ForLoop) -> Result<(), AllocError> {
    out.add("for ")?;
    out.vars(&tree.vars)?;
    out.add(" in ")?;
    expr(out, &tree.iterable)?;
    branch(out, &tree.body)?;
    other_branch(out, &tree.else_branch)
}

#[cycle(statement)]
fn with(out: &mut Listing, tree: &With) -> Result<(), AllocError> {
    out.add("with ")?;
    expr(out, &tree.expr)?;
    out.add(" as ")?;
    out.name(&tree.name)?;
    branch(out, &tree.body)
}

#[cycle(statement)]
fn branch(out: &mut Listing, scope: &Scope) -> Result<(), AllocError> {
    out.add(" {")?;
    statements(out, scope)?;
    out.add("}")
}

#[cycle(statement)]
fn other_branch(out: &mut Listing, scope: &Option<Scope>) -> Result<(), AllocError> {
    match scope {
        None => Ok(()),
        Some(scope) => {
            out.add(" else")?;
            branch(out, scope)
        }
    }
}
