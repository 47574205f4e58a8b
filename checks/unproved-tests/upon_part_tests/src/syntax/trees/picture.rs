// Trees as texts: each node has its kind, the part of the source that it spans, and what is in it.
use std::alloc::{AllocError, Global};
use upon_tree::ast::{Args, BaseExpr, Expr, IfElse, Include, Scope, Stmt, Template};
use upon_types::types::Span;
use upon_types::types::ast::{Access, AccessOp, Ident, Literal, LoopVars, Member};
use upon_types::value::Value;

/// Returns the text of a template's tree. Each node begins with a blank.
pub fn picture(alloc: Global, source: &str, template: &Template) -> Result<String, AllocError> {
    let mut out = String::new(alloc);
    add_scope(&template.scope, source, &mut out)?;
    Ok(out)
}

// The part of the source at a span, in angle brackets.
fn add_part(span: Span, source: &str, out: &mut String) -> Result<(), AllocError> {
    out.push_str("<")?;
    out.push_str(
        source
            .get(span.m..span.n)
            .unwrap_or("no part of the source"),
    )?;
    out.push_str(">")
}

// The begin of a node, with the part that it spans.
fn begin(kind: &str, span: Span, source: &str, out: &mut String) -> Result<(), AllocError> {
    out.push_str(" (")?;
    out.push_str(kind)?;
    out.push_str(" ")?;
    add_part(span, source, out)
}

// A name, and its part of the source where that is another text.
fn add_ident(ident: &Ident, source: &str, out: &mut String) -> Result<(), AllocError> {
    let name = ident.name.as_str();
    out.push_str(name)?;
    if source.get(ident.span.m..ident.span.n) != Some(name) {
        add_part(ident.span, source, out)?;
    }
    Ok(())
}

#[cycle(statement)]
fn add_scope(scope: &Scope, source: &str, out: &mut String) -> Result<(), AllocError> {
    for stmt in &scope.stmts {
        add_stmt(stmt, source, out)?;
    }
    Ok(())
}

#[cycle(statement)]
fn add_stmt(stmt: &Stmt, source: &str, out: &mut String) -> Result<(), AllocError> {
    match stmt {
        Stmt::Raw(span) => begin("raw", *span, source, out)?,
        Stmt::InlineExpr(inline) => {
            begin("show", inline.span, source, out)?;
            add_expr(&inline.expr, source, out)?;
        }
        Stmt::Include(include) => add_include(include, source, out)?,
        Stmt::IfElse(if_else) => add_if(if_else, source, out)?,
        Stmt::ForLoop(for_loop) => {
            add_vars(&for_loop.vars, source, out)?;
            add_expr(&for_loop.iterable, source, out)?;
            add_scope(&for_loop.body, source, out)?;
            add_else(&for_loop.else_branch, source, out)?;
        }
        Stmt::With(with) => {
            out.push_str(" (with ")?;
            add_ident(&with.name, source, out)?;
            add_expr(&with.expr, source, out)?;
            add_scope(&with.body, source, out)?;
        }
    }
    out.push_str(")")
}

#[cycle(statement)]
fn add_if(if_else: &IfElse, source: &str, out: &mut String) -> Result<(), AllocError> {
    out.push_str(if if_else.not { " (if not" } else { " (if" })?;
    add_expr(&if_else.cond, source, out)?;
    add_scope(&if_else.then_branch, source, out)?;
    add_else(&if_else.else_branch, source, out)
}

#[cycle(statement)]
fn add_else(branch: &Option<Scope>, source: &str, out: &mut String) -> Result<(), AllocError> {
    if let Some(other) = branch {
        out.push_str(" (else")?;
        add_scope(other, source, out)?;
        out.push_str(")")?;
    }
    Ok(())
}

fn add_include(include: &Include, source: &str, out: &mut String) -> Result<(), AllocError> {
    begin("include", include.name.span, source, out)?;
    out.push_str(" ")?;
    out.push_str(include.name.as_str())?;
    if let Some(globals) = &include.globals {
        add_expr(globals, source, out)?;
    }
    Ok(())
}

fn add_vars(vars: &LoopVars, source: &str, out: &mut String) -> Result<(), AllocError> {
    out.push_str(" (for ")?;
    match vars {
        LoopVars::Item(name) => add_ident(name, source, out),
        LoopVars::KeyValue(names) => {
            add_part(names.span, source, out)?;
            out.push_str(" ")?;
            add_ident(&names.key, source, out)?;
            out.push_str(" ")?;
            add_ident(&names.value, source, out)
        }
    }
}

#[cycle(expression)]
fn add_expr(expr: &Expr, source: &str, out: &mut String) -> Result<(), AllocError> {
    match expr {
        Expr::Base(base) => add_base(base, source, out),
        Expr::Filter(filter) => {
            begin("filter", filter.span, source, out)?;
            add_expr(&filter.receiver, source, out)?;
            out.push_str(" ")?;
            add_ident(&filter.name, source, out)?;
            if let Some(args) = &filter.args {
                add_args(args, source, out)?;
            }
            out.push_str(")")
        }
    }
}

#[cycle(expression)]
fn add_args(args: &Args, source: &str, out: &mut String) -> Result<(), AllocError> {
    begin("args", args.span, source, out)?;
    for value in &args.values {
        add_base(value, source, out)?;
    }
    out.push_str(")")
}

#[cycle(expression)]
fn add_base(base: &BaseExpr, source: &str, out: &mut String) -> Result<(), AllocError> {
    begin(kind(base), base.span(), source, out)?;
    match base {
        BaseExpr::Var(var) => add_members(&var.path, source, out)?,
        BaseExpr::Literal(literal) => add_literal(literal, out)?,
        BaseExpr::List(list) => {
            for item in &list.items {
                add_base(item, source, out)?;
            }
        }
        BaseExpr::Map(map) => {
            for item in &map.items {
                out.push_str(" ")?;
                out.push_str(item.0.as_str())?;
                add_part(item.0.span, source, out)?;
                add_base(&item.1, source, out)?;
            }
        }
        BaseExpr::Paren(paren) => add_expr(&paren.expr, source, out)?,
        BaseExpr::Call(call) => {
            out.push_str(" ")?;
            add_ident(&call.name, source, out)?;
            if let Some(args) = &call.args {
                add_args(args, source, out)?;
            }
        }
    }
    out.push_str(")")
}

fn kind(base: &BaseExpr) -> &'static str {
    match base {
        BaseExpr::Var(_) => "var",
        BaseExpr::Literal(_) => "literal",
        BaseExpr::List(_) => "list",
        BaseExpr::Map(_) => "map",
        BaseExpr::Paren(_) => "paren",
        BaseExpr::Call(_) => "call",
    }
}

fn add_members(path: &[Member], source: &str, out: &mut String) -> Result<(), AllocError> {
    for member in path {
        out.push_str(match member.op {
            AccessOp::Direct => " .",
            AccessOp::Optional => " ?.",
        })?;
        match &member.access {
            Access::Index(index) => write!(out, "{}", index.value)?,
            Access::Key(name) => add_ident(name, source, out)?,
        }
        add_part(member.span, source, out)?;
    }
    Ok(())
}

fn add_literal(literal: &Literal, out: &mut String) -> Result<(), AllocError> {
    out.push_str(" ")?;
    match &literal.value {
        Value::Bool(truth) => out.push_str(if *truth { "true" } else { "false" }),
        Value::Integer(number) => write!(out, "{number}"),
        Value::String(text) => out.push_str(text.as_str()),
        other => out.push_str(other.human()),
    }
}
