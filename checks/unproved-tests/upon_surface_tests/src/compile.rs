// Names of `upon::compile`, and of `search`, `lex` and `parse` there, with the tokens and the instructions of `upon::types`.
use std::alloc::Global;
use std::borrow::CowStr;
use upon::compile::lex::Lexer;
use upon::compile::parse::Parser;
use upon::compile::search::Searcher;
use std::test::Fail;
use upon::types::ast::{Ident, Literal, LoopVars, Member, String};
use upon::types::{Delimiter, Instr, Span, Token, program, token};
use upon::{Result, Syntax, Template, compile};

pub fn searcher() -> Searcher {
    Searcher::new()
}

pub fn with_syntax(syntax: Syntax) -> Searcher {
    Searcher::with_syntax(syntax)
}

pub fn find_at(searcher: &Searcher, text: &str, at: usize) -> Option<(Delimiter, Span)> {
    searcher.find_at(text, at)
}

pub fn starts_with(searcher: &Searcher, text: &str, at: usize) -> Option<(Delimiter, Span)> {
    searcher.starts_with(text, at)
}

pub fn lexer<'a>(alloc: Global, searcher: &'a Searcher, text: &'a str) -> Lexer<'a> {
    Lexer::new(alloc, searcher, text)
}

pub fn lex(lexer: &mut Lexer) -> Result<Option<(Token, Span)>> {
    lexer.lex()
}

pub fn next(lexer: &mut Lexer) -> Result<Option<(Token, Span)>> {
    lexer.next()
}

pub fn human(token: Token) -> &'static str {
    token.human()
}

fn is_copy<T: Copy + PartialEq + Eq>(one: T) -> bool {
    let other = one;
    one == other
}

pub fn tokens() -> [Token; 26] {
    is_copy(Token::Raw);
    [
        Token::Raw,
        Token::BeginExpr,
        Token::EndExpr,
        Token::BeginBlock,
        Token::EndBlock,
        Token::BeginComment,
        Token::EndComment,
        Token::OpenBracket,
        Token::CloseBracket,
        Token::OpenBrace,
        Token::CloseBrace,
        Token::OpenParen,
        Token::CloseParen,
        Token::Dot,
        Token::QuestionDot,
        Token::Pipe,
        Token::Comma,
        Token::Colon,
        Token::Plus,
        Token::Minus,
        Token::Whitespace,
        Token::Keyword,
        Token::Ident,
        Token::Index,
        Token::Number,
        Token::String,
    ]
}

pub fn token(token: Token) -> usize {
    match token {
        Token::Raw => 0,
        Token::BeginExpr => 1,
        Token::EndExpr => 2,
        Token::BeginBlock => 3,
        Token::EndBlock => 4,
        Token::BeginComment => 5,
        Token::EndComment => 6,
        Token::OpenBracket => 7,
        Token::CloseBracket => 8,
        Token::OpenBrace => 9,
        Token::CloseBrace => 10,
        Token::OpenParen => 11,
        Token::CloseParen => 12,
        Token::Dot => 13,
        Token::QuestionDot => 14,
        Token::Pipe => 15,
        Token::Comma => 16,
        Token::Colon => 17,
        Token::Plus => 18,
        Token::Minus => 19,
        Token::Whitespace => 20,
        Token::Keyword => 21,
        Token::Ident => 22,
        Token::Index => 23,
        Token::Number => 24,
        Token::String => 25,
    }
}

// Both paths of the type are one.
pub fn token_by_its_module(token: token::Token) -> Token {
    token
}

pub fn parser<'a>(alloc: Global, searcher: &'a Searcher, text: &'a str) -> Parser<'a> {
    Parser::new(alloc, searcher, text)
}

pub fn template<'s>(alloc: Global, syntax: &Syntax, text: CowStr<'s>) -> Result<Template<'s>> {
    compile::template(alloc, syntax, text)
}

pub fn instrs(parser: Parser) -> Result<Vec<Instr>> {
    parser.compile_template()
}

// The instructions: each kind, with all that it has. Both paths of the type are one.
pub fn instr_by_its_module(instr: program::Instr) -> Instr {
    instr
}

fn name(ident: &Ident) -> usize {
    ident.name.as_str().len()
}

fn names(vars: &LoopVars) -> usize {
    match vars {
        LoopVars::Item(item) => name(item),
        LoopVars::KeyValue(names) => name(&names.key) + name(&names.value),
    }
}

fn path(members: &[Member]) -> usize {
    members.len()
}

fn text(text: &String) -> usize {
    text.as_str().len()
}

fn bytes(span: &Span) -> usize {
    span.n - span.m
}

fn literal(literal: &Literal) -> usize {
    bytes(&literal.span)
}

pub fn instr(instr: &Instr) -> usize {
    match instr {
        Instr::Jump(to) => *to,
        Instr::JumpIfTrue(to) => *to,
        Instr::JumpIfFalse(to) => *to,
        Instr::Emit => 0,
        Instr::EmitRaw(span) => bytes(span),
        Instr::EmitWith(formatter, count, span) => name(formatter) + *count + bytes(span),
        Instr::LoopStart(vars, span) => names(vars) + bytes(span),
        Instr::LoopNext(to) => *to,
        Instr::LoopNextElse(other, past) => *other + *past,
        Instr::WithStart(ident) => name(ident),
        Instr::WithEnd => 0,
        Instr::Include(template) => text(template),
        Instr::IncludeWith(template) => text(template),
        Instr::ExprStartVar(var) => path(&var.path),
        Instr::ExprStartLiteral(value) => literal(value),
        Instr::ExprStartList(span) => bytes(span),
        Instr::ExprStartMap(span) => bytes(span),
        Instr::ExprListPush => 0,
        Instr::ExprMapInsert(key) => text(key),
        Instr::Apply(function, count, span) => name(function) + *count + bytes(span),
    }
}

#[test]
fn each_step(rt: HostRuntime) -> std::result::Result<(), Fail> {
    let alloc = rt.alloc();
    let found = Some((Delimiter::BeginExpr, Span { m: 1, n: 3 }));
    assert_eq!(rt; find_at(&searcher(), "a{{ b }}", 0), found);
    let built = with_syntax(Syntax::default());
    assert_eq!(rt; starts_with(&built, "a{{ b }}", 1), found);
    for (number, kind) in tokens().iter().enumerate() {
        assert_eq!(rt; token(token_by_its_module(*kind)), number);
    }
    assert_eq!(rt; human(Token::Raw), "raw template");
    let mut tokens = lexer(alloc, &built, "a{{ b }}");
    assert!(rt; lex(&mut tokens)? == Some((Token::Raw, Span { m: 0, n: 1 })));
    assert!(rt; next(&mut tokens)? == Some((Token::BeginExpr, Span { m: 1, n: 3 })));
    let program = instrs(parser(alloc, &built, "a{{ b }}"))?;
    assert_eq!(rt; instr(&program[0]), 1);
    let made = template(alloc, &Syntax::default(), CowStr::Borrowed("a{{ b }}"))?;
    assert_eq!(rt; made.source(), "a{{ b }}");
    Ok(())
}
