// What the tests of the lexer share: rows of sources with their tokens or faults, and the functions that check them.
use std::alloc::Global;
use std::process::Abort;
use std::test::Fail;
use upon_lexer::compile::lex::Lexer;
use upon_delimiters::search::Searcher;
use upon_types::error::Error;
use upon_types::types::{Span, Token};

/// A token and its part of the source.
pub type Piece = (Token, &'static str);

/// A source and the tokens that it is cut into.
pub type Cut = (&'static str, &'static [Piece]);

/// A source, the tokens before its fault, the fault's reason, and where its span begins and ends.
pub type Refusal = (&'static str, &'static [Piece], &'static str, usize, usize);

pub const BEGIN: Piece = (Token::BeginExpr, "{{");

pub const END: Piece = (Token::EndExpr, "}}");

pub const SPACE: Piece = (Token::Whitespace, " ");

// Rows of sources, each with its tokens.
macro_rules! cut_rows {
    ($($source:literal => $($token:ident $part:literal),*;)*) => {
        &[$(($source, &[$((Token::$token, $part)),*])),*]
    };
}

pub(crate) use cut_rows;

// Rows of sources, each with the tokens before its fault, the fault's reason and its span.
macro_rules! refusal_rows {
    ($($source:literal => $($token:ident $part:literal),*; $reason:literal at $m:literal..$n:literal;)*) => {
        &[$(($source, &[$((Token::$token, $part)),*], $reason, $m, $n)),*]
    };
}

pub(crate) use refusal_rows;

// The lexer gives these tokens next, each with its part of the source.
fn gives(
    rt: &impl Abort,
    lexer: &mut Lexer,
    source: &str,
    wanted: &[(Token, &str)],
) -> Result<(), Fail> {
    for (token, part) in wanted {
        let (given, span) = lexer.lex()?.ok_or("too few tokens")?;
        assert_eq!(rt; given, *token, "at {part} in {source}");
        assert_eq!(rt; source.get(span.m..span.n), Some(*part), "in {source}");
    }
    Ok(())
}

/// Neither call gives a token any more.
pub fn ends(rt: &impl Abort, lexer: &mut Lexer, source: &str) -> Result<(), Fail> {
    assert_eq!(rt; lexer.lex()?, None, "behind {source}");
    assert_eq!(rt; lexer.next()?, None, "behind {source}");
    Ok(())
}

/// Checks that the error reports that a source is refused, for this reason, at this span.
pub fn reports(
    rt: &impl Abort,
    alloc: Global,
    error: &Error,
    reason: &str,
    span: Span,
    source: &str,
) -> Result<(), Fail> {
    let line = error.to_string(alloc)?;
    assert_eq!(rt;
        line.strip_prefix("invalid syntax: "),
        Some(reason),
        "of {source}"
    );
    assert_eq!(rt; error.place(), Some(span), "of {source}");
    Ok(())
}

// The source is cut into these tokens.
fn cuts(
    rt: &impl Abort,
    alloc: Global,
    source: &str,
    wanted: &[(Token, &str)],
) -> Result<(), Fail> {
    let searcher = Searcher::new();
    let mut lexer = Lexer::new(alloc, &searcher, source);
    gives(rt, &mut lexer, source, wanted)?;
    ends(rt, &mut lexer, source)
}

/// Between its spaces the tag `{{ part }}` holds this one token.
pub fn holds(rt: &impl Abort, alloc: Global, token: Token, part: &str) -> Result<(), Fail> {
    let source = format!(in alloc; "{{{{ {part} }}}}")?;
    cuts(
        rt,
        alloc,
        source.as_str(),
        &[BEGIN, SPACE, (token, part), SPACE, END],
    )
}

/// After these tokens the source is refused, for this reason, at this span.
pub fn refuses(
    rt: &impl Abort,
    alloc: Global,
    source: &str,
    wanted: &[(Token, &str)],
    reason: &str,
    span: Span,
) -> Result<(), Fail> {
    let searcher = Searcher::new();
    let mut lexer = Lexer::new(alloc, &searcher, source);
    gives(rt, &mut lexer, source, wanted)?;
    let error = lexer.lex().err().ok_or("no fault")?;
    reports(rt, alloc, &error, reason, span, source)?;
    ends(rt, &mut lexer, source)?;
    ends(rt, &mut lexer, source)
}

/// Each source of the rows is cut into its tokens.
pub fn all_cut(rt: &impl Abort, alloc: Global, rows: &[Cut]) -> Result<(), Fail> {
    for (source, wanted) in rows {
        cuts(rt, alloc, source, wanted)?;
    }
    Ok(())
}

/// Each source of the rows is refused after its tokens, for its reason, at its span.
pub fn all_refused(rt: &impl Abort, alloc: Global, rows: &[Refusal]) -> Result<(), Fail> {
    for (source, wanted, reason, m, n) in rows {
        refuses(rt, alloc, source, wanted, reason, Span { m: *m, n: *n })?;
    }
    Ok(())
}
