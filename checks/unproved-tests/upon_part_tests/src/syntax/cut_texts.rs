// Texts that are cut at each character boundary: each part has instructions and a tree, or a fault of its own, under any
// delimiters.
use crate::syntax::delimiters::{
    blank_before, equal, equal_blocks, hyphens, letters, longer_end, one_byte, overlapping,
    with_a_blank,
};
use crate::syntax::parsing::after_values::{AFTER_VALUE, AFTER_WITH};
use crate::syntax::parsing::blocks::BLOCKS;
use crate::syntax::parsing::cuts::CUTS;
use crate::syntax::parsing::expressions::EXPRESSIONS;
use crate::syntax::parsing::in_brackets::IN_BRACKETS;
use crate::syntax::parsing::inside::INSIDE;
use crate::syntax::parsing::meetings::MEETINGS;
use crate::syntax::parsing::outcomes::{Program, Refusal};
use crate::syntax::parsing::statements::STATEMENTS;
use crate::syntax::parsing::tags::TAGS;
use crate::syntax::parsing::worked::WORKED;
use std::alloc::Global;
use std::process::Abort;
use std::test::Fail;
use upon_syntax::compile::parse::Parser;
use upon_syntax::compile::search::Searcher;
use upon_syntax::types::syntax::Syntax;
use upon_types::error::ErrorKind;

// The text has instructions and a tree, or is refused with a reason, at a span inside it, whichever of them is wanted.
fn answers(rt: &impl Abort, alloc: Global, searcher: &Searcher, source: &str) {
    let code = Parser::new(alloc, searcher, source).compile_template();
    let tree = Parser::new(alloc, searcher, source).parse_template();
    assert_eq!(rt; code.is_ok(), tree.is_ok(), "of {source}");
    if let (Err(error), Err(same)) = (code, tree) {
        assert!(rt; matches!(error.kind(), ErrorKind::Syntax), "of {source}");
        assert!(rt; error.reason().is_some(), "of {source}");
        assert_eq!(rt; error.reason(), same.reason(), "of {source}");
        assert_eq!(rt; error.place(), same.place(), "of {source}");
        let inside = error
            .place()
            .is_some_and(|span| source.get(span.m..span.n).is_some());
        assert!(rt; inside, "of {source}");
    }
}

// Of so many places of a text the first is tried.
const EACH: usize = 1; // ./test: 7

// Each part of the text up to a character boundary does so, and each part from one on.
fn parts_answer(rt: &impl Abort, alloc: Global, searcher: &Searcher, source: &str) {
    for place in 0..=source.len() / EACH {
        if let Some((before, after)) = source.split_at_checked(place * EACH) {
            answers(rt, alloc, searcher, before);
            answers(rt, alloc, searcher, after);
        }
    }
}

fn all_parts(rt: &impl Abort, alloc: Global, searcher: &Searcher, rows: &[Refusal]) {
    for row in rows {
        parts_answer(rt, alloc, searcher, row.0);
    }
}

fn all_parts_of_programs(rt: &impl Abort, alloc: Global, searcher: &Searcher, rows: &[Program]) {
    for row in rows {
        parts_answer(rt, alloc, searcher, row.0);
    }
}

fn all_parts_of_texts(rt: &impl Abort, alloc: Global, searcher: &Searcher, texts: &[&str]) {
    for text in texts {
        parts_answer(rt, alloc, searcher, text);
    }
}

// Each part of each text of the tables does so under a syntax.
fn all_parts_under(rt: &impl Abort, alloc: Global, syntax: Syntax) {
    let searcher = Searcher::with_syntax(syntax);
    for rows in [
        TAGS,
        INSIDE,
        AFTER_VALUE,
        AFTER_WITH,
        IN_BRACKETS,
        MEETINGS,
        CUTS,
        BLOCKS,
    ] {
        all_parts(rt, alloc, &searcher, rows);
    }
    all_parts_of_programs(rt, alloc, &searcher, EXPRESSIONS);
    all_parts_of_programs(rt, alloc, &searcher, STATEMENTS);
    all_parts_of_texts(rt, alloc, &searcher, WORKED);
}

#[test]
fn parts_of_tags(rt: HostRuntime) {
    all_parts(&rt, rt.alloc(), &Searcher::new(), TAGS);
}

#[test]
fn parts_of_inside(rt: HostRuntime) {
    all_parts(&rt, rt.alloc(), &Searcher::new(), INSIDE);
}

#[test]
fn parts_of_after_value(rt: HostRuntime) {
    all_parts(&rt, rt.alloc(), &Searcher::new(), AFTER_VALUE);
}

#[test]
fn parts_of_after_with(rt: HostRuntime) {
    all_parts(&rt, rt.alloc(), &Searcher::new(), AFTER_WITH);
}

#[test]
fn parts_of_in_brackets(rt: HostRuntime) {
    all_parts(&rt, rt.alloc(), &Searcher::new(), IN_BRACKETS);
}

#[test]
fn parts_of_meetings(rt: HostRuntime) {
    all_parts(&rt, rt.alloc(), &Searcher::new(), MEETINGS);
}

#[test]
fn parts_of_cuts(rt: HostRuntime) {
    all_parts(&rt, rt.alloc(), &Searcher::new(), CUTS);
}

#[test]
fn parts_of_blocks(rt: HostRuntime) {
    all_parts(&rt, rt.alloc(), &Searcher::new(), BLOCKS);
}

#[test]
fn parts_of_expressions(rt: HostRuntime) {
    all_parts_of_programs(&rt, rt.alloc(), &Searcher::new(), EXPRESSIONS);
}

#[test]
fn parts_of_statements(rt: HostRuntime) {
    all_parts_of_programs(&rt, rt.alloc(), &Searcher::new(), STATEMENTS);
}

#[test]
fn parts_of_worked(rt: HostRuntime) {
    all_parts_of_texts(&rt, rt.alloc(), &Searcher::new(), WORKED);
}

#[test]
fn parts_under_overlapping(rt: HostRuntime) -> Result<(), Fail> {
    all_parts_under(&rt, rt.alloc(), overlapping(rt.alloc())?);
    Ok(())
}

#[test]
fn parts_under_equal(rt: HostRuntime) -> Result<(), Fail> {
    all_parts_under(&rt, rt.alloc(), equal(rt.alloc())?);
    Ok(())
}

#[test]
fn parts_under_one_byte(rt: HostRuntime) -> Result<(), Fail> {
    all_parts_under(&rt, rt.alloc(), one_byte(rt.alloc())?);
    Ok(())
}

#[test]
fn parts_under_with_a_blank(rt: HostRuntime) -> Result<(), Fail> {
    all_parts_under(&rt, rt.alloc(), with_a_blank(rt.alloc())?);
    Ok(())
}

#[test]
fn parts_under_letters(rt: HostRuntime) -> Result<(), Fail> {
    all_parts_under(&rt, rt.alloc(), letters(rt.alloc())?);
    Ok(())
}

#[test]
fn parts_under_longer_end(rt: HostRuntime) -> Result<(), Fail> {
    all_parts_under(&rt, rt.alloc(), longer_end(rt.alloc())?);
    Ok(())
}

#[test]
fn parts_under_hyphens(rt: HostRuntime) -> Result<(), Fail> {
    all_parts_under(&rt, rt.alloc(), hyphens(rt.alloc())?);
    Ok(())
}

#[test]
fn parts_under_equal_blocks(rt: HostRuntime) -> Result<(), Fail> {
    all_parts_under(&rt, rt.alloc(), equal_blocks(rt.alloc())?);
    Ok(())
}

#[test]
fn parts_under_blank_before(rt: HostRuntime) -> Result<(), Fail> {
    all_parts_under(&rt, rt.alloc(), blank_before(rt.alloc())?);
    Ok(())
}
