// Texts that would be markup: between tags, in an attribute, and by a formatter's name.
use crate::html::hostile::{ROWS, Row, context_of};
use std::alloc::{AllocError, Global};
use std::borrow::CowStr;
use std::process::Abort;
use std::test::Fail;
use upon::fmt::DefaultFormat;
use upon::{Engine, Value, value};
use upon_html::formatters::{Escape, Verbatim};
use upon_html::pages;
use upon_examples::answers::{all_answer, line_of};

// A text, twice and between raw parts.
fn twice(alloc: Global, text: &str) -> std::result::Result<String, AllocError> {
    format!(in alloc; "<p title='{text}'>{text}</p>")
}

const PAGE: &str = "<p title='{{ x }}'>{{ x }}</p>";

#[test]
fn whatever_formatters_write(rt: HostRuntime) -> std::result::Result<(), Fail> {
    let alloc = rt.alloc();
    let mut engine = Engine::new(alloc);
    let plain = Box::new(alloc, DefaultFormat)?;
    engine.add_formatter(CowStr::Borrowed("plain"), plain)?;
    for (text, written) in ROWS {
        let context = context_of(alloc, text)?;
        let page = pages::render_text(&engine, PAGE, &context)?;
        assert!(&rt; page == twice(alloc, written)?, "{page}");
        let page = pages::render_text(&engine, "<b>{{ x | plain }}</b>", &context)?;
        assert!(&rt; page == format!(in alloc; "<b>{written}</b>")?, "{page}");
    }
    Ok(())
}

#[test]
fn templates_by_their_names(rt: HostRuntime) -> std::result::Result<(), Fail> {
    let alloc = rt.alloc();
    let mut engine = Engine::new(alloc);
    engine.add_template(CowStr::Borrowed("part"), CowStr::Borrowed(PAGE))?;
    engine.add_template(
        CowStr::Borrowed("page"),
        CowStr::Borrowed("{% include \"part\" %}"),
    )?;
    for (text, written) in ROWS {
        let context = context_of(alloc, text)?;
        let Some(page) = pages::render_template(&engine, "page", &context) else {
            return Err(Fail::new("no template"));
        };
        let page = page?;
        assert!(&rt; page == twice(alloc, written)?, "{page}");
    }
    assert!(&rt; pages::render_template(&engine, "other", &Value::None).is_none());
    Ok(())
}

// An engine that escapes, with the way round under a name.
fn escaping<'e>(alloc: Global) -> std::result::Result<Engine<'e>, AllocError> {
    let mut engine = Engine::new(alloc);
    engine.set_default_formatter(Box::new(alloc, Escape)?);
    let verbatim = Box::new(alloc, Verbatim)?;
    engine.add_formatter(CowStr::Borrowed("verbatim"), verbatim)?;
    Ok(engine)
}

// Such a page has the text, as it is written, and as it is.
fn has_both(
    rt: &impl Abort,
    alloc: Global,
    engine: &Engine<'_>,
    row: Row,
) -> std::result::Result<(), Fail> {
    let (text, written) = row;
    let context = context_of(alloc, text)?;
    let page = engine.render_text("<b>{{ x }}</b>{{ x | verbatim }}", &context)?;
    assert!(rt;
        page == format!(in alloc; "<b>{written}</b>{text}")?,
        "{page}"
    );
    Ok(())
}

#[test]
fn an_engine_that_escapes(rt: HostRuntime) -> std::result::Result<(), Fail> {
    let engine = escaping(rt.alloc())?;
    for row in ROWS {
        has_both(&rt, rt.alloc(), &engine, *row)?;
    }
    Ok(())
}

#[test]
fn other_values(rt: HostRuntime) -> std::result::Result<(), Fail> {
    let alloc = rt.alloc();
    let context = value! { in alloc; yes: true, n: -5, no: None, list: ["<"], map: {a: "<"} }?;
    let rows = [
        ("{{ yes }} {{ n }} {{ no }}.", "true -5 ."),
        (
            "{% for k, v in {\"a<\": 1} %}{{ k }}{{ loop.index }}{{ loop.last }}{% endfor %}",
            "a&lt;0true",
        ),
        (
            "{{ list }}",
            "format error: expression evaluated to unformattable type list at 3..7",
        ),
        (
            "{{ map }}",
            "format error: expression evaluated to unformattable type map at 3..6",
        ),
    ];
    all_answer(alloc, &escaping(alloc)?, &context, &rows)?;
    let engine = Engine::new(alloc);
    for (source, wanted) in rows {
        let line = line_of(alloc, pages::render_text(&engine, source, &context))?;
        assert_eq!(&rt; line.as_str(), wanted);
    }
    Ok(())
}

// A text without a character that is escaped takes one growth: a second would leave room for more.
#[test]
fn one_growth_for_a_text_as_it_is(rt: HostRuntime) -> std::result::Result<(), Fail> {
    let alloc = rt.alloc();
    let text =
        "a text without a character that is escaped, longer than what a first growth makes room for by itself";
    let mut f = upon::fmt::Formatter::new(alloc);
    assert!(&rt; upon_html::formatters::write_escaped(&mut f, text).is_ok());
    let Some(written) = f.into_text() else {
        return Err(Fail::new("out of memory"));
    };
    assert_eq!(&rt; written.as_str(), text);
    assert_eq!(&rt; written.capacity(), text.len());
    Ok(())
}
