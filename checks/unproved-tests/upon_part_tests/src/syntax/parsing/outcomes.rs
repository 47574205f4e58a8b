// What the tests of the parser share: rows of texts with their faults or instructions, and the functions that check them.
use crate::instructions::lines;
use std::alloc::Global;
use std::process::Abort;
use std::test::Fail;
use upon_syntax::compile::parse::Parser;
use upon_syntax::compile::search::Searcher;
use upon_types::error::Error;
use upon_types::types::Span;

/// A text, the reason why it is refused, and where the span of its fault begins and ends.
pub type Refusal = (&'static str, &'static str, usize, usize);

/// A text and the lines of its instructions.
pub type Program = (&'static str, &'static str);

// The error is for this reason, at this span.
fn reports(rt: &impl Abort, error: &Error, row: &Refusal) {
    let (source, reason, m, n) = *row;
    assert_eq!(rt; error.reason(), Some(reason), "of {source}");
    assert_eq!(rt; error.place(), Some(Span { m, n }), "of {source}");
}

// The text is refused, for this reason, at this span, whether its instructions or its tree are wanted.
fn refused(rt: &impl Abort, alloc: Global, searcher: &Searcher, row: &Refusal) -> Result<(), Fail> {
    let parser = Parser::new(alloc, searcher, row.0);
    reports(rt, &parser.compile_template().err().ok_or("instructions")?, row);
    let parser = Parser::new(alloc, searcher, row.0);
    reports(rt, &parser.parse_template().err().ok_or("a tree")?, row);
    Ok(())
}

// The text has these instructions.
fn accepted(
    rt: &impl Abort,
    alloc: Global,
    searcher: &Searcher,
    row: &Program,
) -> Result<(), Fail> {
    let (source, wanted) = *row;
    let code = Parser::new(alloc, searcher, source).compile_template()?;
    let given = lines(alloc, &code, Some(source))?;
    assert_eq!(rt; given.as_str(), wanted, "of {source}");
    Ok(())
}

/// Each text of the rows is refused with its first fault, under the delimiters of a searcher.
pub fn all_refused(
    rt: &impl Abort,
    alloc: Global,
    searcher: &Searcher,
    rows: &[Refusal],
) -> Result<(), Fail> {
    for row in rows {
        refused(rt, alloc, searcher, row)?;
    }
    Ok(())
}

/// Each text of the rows has its instructions, under the delimiters of a searcher.
pub fn all_accepted(
    rt: &impl Abort,
    alloc: Global,
    searcher: &Searcher,
    rows: &[Program],
) -> Result<(), Fail> {
    for row in rows {
        accepted(rt, alloc, searcher, row)?;
    }
    Ok(())
}
