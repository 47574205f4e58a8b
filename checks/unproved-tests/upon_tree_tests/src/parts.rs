// Small parts of trees.
use std::alloc::{AllocError, Global};
use upon_tree::ast::{Args, BaseExpr, Expr, Ident, Literal, Name};
use upon_types::types::Span;
use upon_types::value::Value;

/// The place of each part.
pub const PLACE: Span = Span { m: 0, n: 1 };

/// Creates a number.
pub fn number() -> BaseExpr {
    BaseExpr::Literal(Literal {
        value: Value::Integer(1),
        span: PLACE,
    })
}

/// Creates a name.
pub fn name(alloc: Global) -> Result<Ident, AllocError> {
    Ok(Ident {
        name: Name::from_str(alloc, "f")?,
        span: PLACE,
    })
}

/// Creates a row with the expression between two numbers.
pub fn row(alloc: Global, base: BaseExpr) -> Result<Vec<BaseExpr>, AllocError> {
    let mut items = Vec::new(alloc);
    items.push(number())?;
    items.push(base)?;
    items.push(number())?;
    Ok(items)
}

/// Creates arguments with the expression between two numbers.
pub fn arguments(alloc: Global, base: BaseExpr) -> Result<Option<Args>, AllocError> {
    Ok(Some(Args {
        values: row(alloc, base)?,
        span: PLACE,
    }))
}

/// Creates an expression that is a number.
pub fn one() -> Expr {
    Expr::Base(number())
}
