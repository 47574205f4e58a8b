// The texts of expressions. A step of a path has the place of its name or index, and after `@` its own; so has a
// filter, which is after what it is applied to.
use crate::listing::Listing;
use std::alloc::AllocError;
use upon_tree::ast::{
    Access, AccessOp, Args, BaseExpr, Call, Expr, Filter, Literal, Member, String as Quoted, Var,
};
use upon_types::value::Value;

/// Adds the text of an expression.
#[cycle(expr)]
pub fn expr(out: &mut Listing, tree: &Expr) -> Result<(), AllocError> {
    match tree {
        Expr::Base(part) => base(out, part),
        Expr::Filter(outer) => filter(out, outer),
    }
}

#[cycle(expr)]
fn filter(out: &mut Listing, tree: &Filter) -> Result<(), AllocError> {
    expr(out, &tree.receiver)?;
    out.add(" | ")?;
    out.name(&tree.name)?;
    out.add_at("@", tree.span)?;
    args(out, &tree.args)
}

#[cycle(expr)]
fn args(out: &mut Listing, given: &Option<Args>) -> Result<(), AllocError> {
    match given {
        None => Ok(()),
        Some(args) => {
            out.add_at(" args", args.span)?;
            bases(out, &args.values)
        }
    }
}

#[cycle(expr)]
fn base(out: &mut Listing, tree: &BaseExpr) -> Result<(), AllocError> {
    match tree {
        BaseExpr::Var(var) => path(out, var),
        BaseExpr::Literal(value) => literal(out, value),
        BaseExpr::List(list) => {
            out.add_at("list", list.span)?;
            bases(out, &list.items)
        }
        BaseExpr::Map(map) => {
            out.add_at("map", map.span)?;
            entries(out, &map.items)
        }
        BaseExpr::Paren(paren) => {
            out.add_at("paren", paren.span)?;
            out.add("(")?;
            expr(out, &paren.expr)?;
            out.add(")")
        }
        BaseExpr::Call(outer) => call(out, outer),
    }
}

#[cycle(expr)]
fn call(out: &mut Listing, tree: &Call) -> Result<(), AllocError> {
    out.add_at("call", tree.span)?;
    out.add(" ")?;
    out.name(&tree.name)?;
    args(out, &tree.args)
}

#[cycle(expr)]
fn bases(out: &mut Listing, items: &[BaseExpr]) -> Result<(), AllocError> {
    let mut separator = "(";
    for item in items {
        out.add(separator)?;
        base(out, item)?;
        separator = ", ";
    }
    out.add(if items.is_empty() { "()" } else { ")" })
}

#[cycle(expr)]
fn entries(out: &mut Listing, items: &[(Quoted, BaseExpr)]) -> Result<(), AllocError> {
    let mut separator = "(";
    for (key, value) in items {
        out.add(separator)?;
        out.quoted(key)?;
        out.add(": ")?;
        base(out, value)?;
        separator = ", ";
    }
    out.add(if items.is_empty() { "()" } else { ")" })
}

fn literal(out: &mut Listing, tree: &Literal) -> Result<(), AllocError> {
    match &tree.value {
        Value::Bool(truth) => out.add_at(if *truth { "yes" } else { "no" }, tree.span),
        Value::Integer(number) => out.number(*number, tree.span),
        Value::String(text) => {
            out.add("text ")?;
            out.add_at(text.as_str(), tree.span)
        }
        other => out.add_at(other.human(), tree.span),
    }
}

fn path(out: &mut Listing, tree: &Var) -> Result<(), AllocError> {
    let mut separator = "";
    for step in &tree.path {
        out.add(separator)?;
        member(out, step)?;
        separator = " ";
    }
    Ok(())
}

fn member(out: &mut Listing, tree: &Member) -> Result<(), AllocError> {
    out.add(match tree.op {
        AccessOp::Direct => ".",
        AccessOp::Optional => "?.",
    })?;
    match &tree.access {
        Access::Index(index) => out.number(index.value as i64, index.span)?,
        Access::Key(name) => out.name(name)?,
    }
    out.add_at("@", tree.span)
}
