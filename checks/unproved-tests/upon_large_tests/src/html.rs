// Large texts on pages that escape: by the default formatter, by one of a name, and as raw parts.
use std::alloc::{AllocError, Global};
use std::borrow::CowStr;
use std::process::Abort;
use std::test::Fail;
use upon::fmt::DefaultFormat;
use upon::{Engine, Value};
use upon_html::formatters::Verbatim;
use upon_html::pages;

// A text many times over.
fn many(alloc: Global, part: &str, times: usize) -> Result<String, AllocError> {
    let mut text = String::new(alloc);
    for _ in 0..times {
        text.push_str(part)?;
    }
    Ok(text)
}

// A template writes so many references, on that many angle brackets.
fn is_escaped(rt: &impl Abort, alloc: Global, source: &str, times: usize) -> Result<(), Fail> {
    let mut engine = Engine::new(alloc);
    let plain = Box::new(alloc, DefaultFormat)?;
    engine.add_formatter(CowStr::Borrowed("plain"), plain)?;
    let x = Value::from_text(alloc, many(alloc, "<", times)?.as_str())?;
    let context = Value::from_pairs(alloc, [(String::from_str(alloc, "x")?, x)])?;
    let page = pages::render_text(&engine, source, &context)?;
    assert!(rt; page == many(alloc, "&lt;", times)?, "{page}");
    Ok(())
}

#[test]
fn large_values(rt: HostRuntime) -> Result<(), Fail> {
    let mut times = 1usize;
    for _ in 0..13 {
        times = times.wrapping_mul(2);
        is_escaped(&rt, rt.alloc(), "{{ x }}", times)?;
    }
    Ok(())
}

#[test]
fn large_texts_of_formatters(rt: HostRuntime) -> Result<(), Fail> {
    let mut times = 1usize;
    for _ in 0..13 {
        times = times.wrapping_mul(2);
        is_escaped(&rt, rt.alloc(), "{{ x | plain }}", times)?;
    }
    Ok(())
}

// What is markup already goes out as it is.
#[test]
fn large_texts_as_they_are(rt: HostRuntime) -> Result<(), Fail> {
    let alloc = rt.alloc();
    let mut engine = Engine::new(alloc);
    engine.add_formatter(CowStr::Borrowed("verbatim"), Box::new(alloc, Verbatim)?)?;
    let mut times = 1usize;
    for _ in 0..13 {
        times = times.wrapping_mul(2);
        let text = many(alloc, "<", times)?;
        let x = Value::from_text(alloc, text.as_str())?;
        let context = Value::from_pairs(alloc, [(String::from_str(alloc, "x")?, x)])?;
        let page = engine.render_text("{{ x | verbatim }}", &context)?;
        assert!(&rt; page == text, "{page}");
    }
    Ok(())
}

#[test]
fn large_raw_parts(rt: HostRuntime) -> Result<(), Fail> {
    let alloc = rt.alloc();
    let mut engine = Engine::new(alloc);
    let mut times = 1usize;
    for _ in 0..16 {
        times = times.wrapping_mul(2);
        let source = many(alloc, "<", times)?;
        let page = pages::render_text(&engine, source.as_str(), &Value::None)?;
        assert!(&rt; page == source);
        engine.add_template(CowStr::Borrowed("t"), CowStr::Owned(source))?;
        let Some(page) = pages::render_template(&engine, "t", &Value::None) else {
            return Err(Fail::new("no t"));
        };
        assert!(&rt; page?.len() == times);
    }
    Ok(())
}
