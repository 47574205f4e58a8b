// Escaped pages where a growth of memory may be refused: the page, or that memory is out. `checks/growths` refuses each
// in turn.
use crate::html::hostile::{ROWS, context_of};
use std::alloc::Global;
use std::borrow::CowStr;
use std::process::Abort;
use std::test::Fail;
use upon::error::ErrorKind;
use upon::{Engine, Result};
use upon_html::formatters::Escape;
use upon_html::pages;

// The page has this text, or memory is out.
fn is_or_out(rt: &impl Abort, page: Result<String>, wanted: &str) {
    match page {
        Ok(page) => assert_eq!(rt; page.as_str(), wanted),
        Err(error) => assert!(rt; matches!(error.kind(), ErrorKind::OutOfMemory), "{error}"),
    }
}

// By an engine without formatters.
fn escaped(alloc: Global, text: &str) -> Result<String> {
    let engine = Engine::new(alloc);
    pages::render_text(&engine, "{{ x }}", &context_of(alloc, text)?)
}

// By an engine whose default formatter escapes.
fn by_default(alloc: Global, text: &str) -> Result<String> {
    let mut engine = Engine::new(alloc);
    engine.set_default_formatter(Box::new(alloc, Escape)?);
    engine.render_text("{{ x }}", &context_of(alloc, text)?)
}

#[test]
fn pages_or_out_of_memory(rt: HostRuntime) -> std::result::Result<(), Fail> {
    let alloc = rt.alloc();
    for (text, written) in ROWS {
        is_or_out(&rt, escaped(alloc, text), written);
        is_or_out(&rt, by_default(alloc, text), written);
    }
    Ok(())
}
