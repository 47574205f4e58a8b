// Names of `upon::types`, and of `ast` and `syntax` there. (Tokens and instructions are in `compile`.)
use std::alloc::{AllocError, Global};
use std::ops::Range;
use std::test::Fail;
use upon::types::syntax::{Syntax, SyntaxBuilder};
use upon::types::{Delimiter, Span, ast, slice};

fn is_copy<T: Copy + PartialEq + Eq>(one: T) -> bool {
    let other = one;
    one == other
}

pub fn span() -> Span {
    let made = Span { m: 1, n: 2 };
    let range: Range<usize> = 0..1;
    let from: Span = range.into();
    is_copy(made);
    made.combine(from)
}

pub fn bounds(span: Span) -> (usize, usize) {
    (span.m, span.n)
}

pub fn slices(text: &str, span: Span) -> &str {
    slice(text, span)
}

pub fn delimiters() -> [Delimiter; 12] {
    is_copy(Delimiter::BeginExpr);
    [
        Delimiter::BeginExpr,
        Delimiter::EndExpr,
        Delimiter::BeginExprTrim,
        Delimiter::EndExprTrim,
        Delimiter::BeginBlock,
        Delimiter::EndBlock,
        Delimiter::BeginBlockTrim,
        Delimiter::EndBlockTrim,
        Delimiter::BeginComment,
        Delimiter::EndComment,
        Delimiter::BeginCommentTrim,
        Delimiter::EndCommentTrim,
    ]
}

pub fn delimiter(delimiter: Delimiter) -> usize {
    match delimiter {
        Delimiter::BeginExpr => 0,
        Delimiter::EndExpr => 1,
        Delimiter::BeginExprTrim => 2,
        Delimiter::EndExprTrim => 3,
        Delimiter::BeginBlock => 4,
        Delimiter::EndBlock => 5,
        Delimiter::BeginBlockTrim => 6,
        Delimiter::EndBlockTrim => 7,
        Delimiter::BeginComment => 8,
        Delimiter::EndComment => 9,
        Delimiter::BeginCommentTrim => 10,
        Delimiter::EndCommentTrim => 11,
    }
}

// `types::ast`.
pub fn names(vars: &ast::LoopVars) -> Span {
    match vars {
        ast::LoopVars::Item(name) => name.span,
        ast::LoopVars::KeyValue(names) => names.span,
    }
}

pub fn loop_vars(key: ast::Ident, value: ast::Ident, span: Span) -> ast::LoopVars {
    ast::LoopVars::KeyValue(ast::KeyValue { key, value, span })
}

pub fn item(name: ast::Ident) -> ast::LoopVars {
    ast::LoopVars::Item(name)
}

pub fn key_value(names: &ast::KeyValue) -> (&ast::Ident, &ast::Ident, Span) {
    (&names.key, &names.value, names.span)
}

pub fn var(
    var: &ast::Var,
) -> (
    &Vec<ast::Member>,
    &ast::Member,
    &ast::Member,
    &[ast::Member],
    Span,
) {
    (&var.path, var.first(), var.last(), var.rest(), var.span())
}

pub fn member(member: ast::Member) -> (ast::AccessOp, ast::Access, Span) {
    let ast::Member { op, access, span } = member;
    (op, access, span)
}

pub fn access_ops() -> [ast::AccessOp; 2] {
    [ast::AccessOp::Direct, ast::AccessOp::Optional]
}

pub fn is_optional(op: ast::AccessOp) -> bool {
    match op {
        ast::AccessOp::Direct => false,
        ast::AccessOp::Optional => true,
    }
}

pub fn access_op_is_copy() -> bool {
    is_copy(ast::AccessOp::Direct)
}

pub fn access(access: &ast::Access) -> Span {
    match access {
        ast::Access::Index(_) => access.span(),
        ast::Access::Key(_) => access.span(),
    }
}

pub fn index(value: usize, span: Span) -> ast::Access {
    ast::Access::Index(ast::Index { value, span })
}

pub fn index_parts(index: &ast::Index) -> (usize, Span) {
    (index.value, index.span)
}

pub fn ident(ident: &ast::Ident) -> (&str, Span) {
    (ident.name.as_str(), ident.span)
}

pub fn new_ident(alloc: Global, text: &str, span: Span) -> Result<ast::Ident, AllocError> {
    let name = ast::Name::from_str(alloc, text)?;
    Ok(ast::Ident { name, span })
}

pub fn literal(value: upon::Value, span: Span) -> ast::Literal {
    ast::Literal { value, span }
}

pub fn literal_parts(literal: &ast::Literal) -> (&upon::Value, Span) {
    (&literal.value, literal.span)
}

pub fn string(value: String, span: Span) -> ast::String {
    ast::String { value, span }
}

pub fn string_parts(text: &ast::String) -> (&String, Span) {
    (&text.value, text.span)
}

pub fn string_text(text: &ast::String) -> &str {
    text.as_str()
}

// `types::syntax`.
fn is_clone<T: Clone>(one: &T) -> Result<T, AllocError> {
    one.clone()
}

fn is_eq<T: PartialEq + Eq>(one: &T, other: &T) -> bool {
    one == other
}

pub fn builder<'a>() -> SyntaxBuilder<'a> {
    Syntax::builder()
}

pub fn expr<'b, 'a>(
    builder: &'b mut SyntaxBuilder<'a>,
    begin: &'a str,
    end: &'a str,
) -> &'b mut SyntaxBuilder<'a> {
    builder.expr(begin, end)
}

pub fn block<'b, 'a>(
    builder: &'b mut SyntaxBuilder<'a>,
    begin: &'a str,
    end: &'a str,
) -> &'b mut SyntaxBuilder<'a> {
    builder.block(begin, end)
}

pub fn comment<'b, 'a>(
    builder: &'b mut SyntaxBuilder<'a>,
    begin: &'a str,
    end: &'a str,
) -> &'b mut SyntaxBuilder<'a> {
    builder.comment(begin, end)
}

pub fn build(alloc: Global, builder: &SyntaxBuilder) -> Result<Syntax, AllocError> {
    builder.build(alloc)
}

pub fn clones<'a>(builder: &SyntaxBuilder<'a>) -> Result<SyntaxBuilder<'a>, AllocError> {
    is_clone(builder)
}

pub fn default_syntax() -> Syntax {
    Syntax::default()
}

pub fn try_clone(syntax: &Syntax) -> Result<Syntax, AllocError> {
    syntax.try_clone()
}

pub fn equal(one: &Syntax, other: &Syntax) -> bool {
    is_eq(one, other)
}

#[test]
fn spans_and_syntaxes(rt: HostRuntime) -> std::result::Result<(), Fail> {
    let alloc = rt.alloc();
    assert_eq!(rt; bounds(span()), (0, 2));
    assert_eq!(rt; slices("abc", Span { m: 1, n: 2 }), "b");
    for (number, kind) in delimiters().iter().enumerate() {
        assert_eq!(rt; delimiter(*kind), number);
    }
    let mut given = builder();
    expr(&mut given, "<<", ">>");
    block(&mut given, "<%", "%>");
    comment(&mut given, "<#", "#>");
    let built = build(alloc, &given)?;
    assert!(rt; equal(&built, &build(alloc, &clones(&given)?)?));
    assert!(rt; equal(&built, &try_clone(&built)?));
    assert!(rt; !equal(&built, &default_syntax()));
    let whole = Span { m: 0, n: 1 };
    let text = string(String::from_str(alloc, "a")?, whole);
    assert_eq!(rt; string_text(&text), "a");
    let name = new_ident(alloc, "a", whole)?;
    assert_eq!(rt; ident(&name).0, "a");
    assert_eq!(rt; names(&item(name)), whole);
    assert!(rt; is_optional(access_ops()[1]));
    assert_eq!(rt; access(&index(1, whole)), whole);
    Ok(())
}
