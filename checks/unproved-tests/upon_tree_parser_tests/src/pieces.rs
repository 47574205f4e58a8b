// Pieces of templates, of which builders are told. Their places are letters of the alphabet, their expressions ones.
use crate::listed_statements::statements;
use crate::listing::Listing;
use std::alloc::{AllocError, Global};
use upon_tag_parser::compile::parse::kind::Opening;
use upon_tree::ast::{BaseExpr, Expr, Ident, KeyValue, Literal, LoopVars, Name, String as Quoted};
use upon_tree::statements::TreeBuilder;
use upon_types::types::Span;
use upon_types::value::Value;

/// A piece of a template, with the places of its parts.
#[derive(Clone, Copy, Drop)]
pub enum Piece {
    /// A raw part.
    Raw(&'static str),
    /// An expression that is shown, and its tag.
    Show(&'static str, &'static str),
    /// An include.
    Include(&'static str),
    /// An include with values.
    IncludeWith(&'static str, &'static str),
    /// An `if`.
    If(&'static str),
    /// An `if not`.
    IfNot(&'static str),
    /// A `for` with one name.
    For(&'static str, &'static str),
    /// A `for` with two names.
    ForTwo(&'static str, &'static str, &'static str),
    /// A `with`.
    With(&'static str, &'static str),
    /// An `else`.
    Else,
    /// An `else if`.
    ElseIf(&'static str),
    /// An `else if not`.
    ElseIfNot(&'static str),
    /// The end of a block.
    End,
}

const LETTERS: &str = "abcdefghijklmnopqrstuvwxyz";

// Where some letters are, which follow each other.
fn place(letters: &str) -> Span {
    let m = LETTERS.find(letters).unwrap_or(LETTERS.len());
    Span {
        m,
        n: m + letters.len(),
    }
}

fn one(letters: &str) -> Expr {
    Expr::Base(BaseExpr::Literal(Literal {
        value: Value::Integer(1),
        span: place(letters),
    }))
}

fn name(alloc: Global, letters: &str) -> Result<Ident, AllocError> {
    Ok(Ident {
        name: Name::from_str(alloc, letters)?,
        span: place(letters),
    })
}

fn quoted(alloc: Global, letters: &str) -> Result<Quoted, AllocError> {
    Ok(Quoted {
        value: String::from_str(alloc, letters)?,
        span: place(letters),
    })
}

// The names of a loop, which are letters that follow each other.
fn both(alloc: Global, key: &str, value: &str) -> Result<LoopVars, AllocError> {
    Ok(LoopVars::KeyValue(KeyValue {
        key: name(alloc, key)?,
        value: name(alloc, value)?,
        span: place(key).combine(place(value)),
    }))
}

/// Tells a builder of a piece.
pub fn tell(alloc: Global, builder: &mut TreeBuilder, piece: Piece) -> Result<(), AllocError> {
    match piece {
        Piece::Raw(text) => builder.raw(place(text)),
        Piece::Show(expr, tag) => builder.inline_expr(one(expr), place(tag)),
        Piece::Include(name) => builder.include(quoted(alloc, name)?, None),
        Piece::IncludeWith(name, globals) => {
            builder.include(quoted(alloc, name)?, Some(one(globals)))
        }
        Piece::Else => {
            builder.begin_else();
            Ok(())
        }
        Piece::ElseIf(cond) => builder.else_if(false, one(cond)),
        Piece::ElseIfNot(cond) => builder.else_if(true, one(cond)),
        Piece::End => builder.end(),
        _ => match opening(alloc, piece)? {
            Some((opening, expr)) => builder.begin(opening, expr),
            None => Ok(()),
        },
    }
}

// What a piece opens a block with, if it opens one.
fn opening(alloc: Global, piece: Piece) -> Result<Option<(Opening, Expr)>, AllocError> {
    Ok(Some(match piece {
        Piece::If(cond) => (Opening::If(false), one(cond)),
        Piece::IfNot(cond) => (Opening::If(true), one(cond)),
        Piece::For(item, of) => (Opening::For(LoopVars::Item(name(alloc, item)?)), one(of)),
        Piece::ForTwo(key, value, of) => (Opening::For(both(alloc, key, value)?), one(of)),
        Piece::With(expr, as_name) => (Opening::With(name(alloc, as_name)?), one(expr)),
        _ => return Ok(None),
    }))
}

/// Returns the text of the tree of a template.
pub fn text_of(alloc: Global, pieces: &[Piece]) -> Result<String, AllocError> {
    let mut builder = TreeBuilder::new(alloc);
    for piece in pieces {
        tell(alloc, &mut builder, *piece)?;
    }
    let template = builder.finish();
    let mut out = Listing::new(alloc, LETTERS);
    statements(&mut out, &template.scope)?;
    Ok(out.finish())
}
