// What is shown of a template on a value, and what is said if that fails.
use crate::tool::libraries::library;
use std::alloc::{AllocError, Global};
use std::borrow::CowStr;
use std::test::Fail;
use upon::{Engine, Limits, Value};
use upon_data::lines::json;
use upon_html::formatters::{Escape, Verbatim};
use upon_tool_pages::rendering::{Page, show};
use upon_tool_messages::library::Library;

// The status, what went to standard output and what to standard error, as one text.
fn answer(
    alloc: Global,
    engine: &Engine<'_>,
    library: &Library,
    name: &str,
    text: &str,
) -> Result<String, Fail> {
    let value = value(alloc, text)?;
    let page = Page {
        name,
        value: &value,
        limits: Limits::none(),
    };
    Ok(shown(alloc, engine, library, &page)?)
}

// The value of a text of JSON.
fn value(alloc: Global, text: &str) -> Result<Value, Fail> {
    json(alloc, text).map_err(|_| Fail::new(format_args!("no JSON: {text}")))
}

fn shown(
    alloc: Global,
    engine: &Engine<'_>,
    library: &Library,
    page: &Page<'_, '_>,
) -> Result<String, AllocError> {
    let mut out = Vec::new(alloc);
    let mut err = Vec::new(alloc);
    let status = show(alloc, engine, library, page, &mut out, &mut err);
    let out = String::from_utf8_lossy(alloc, out.as_slice())?;
    let err = String::from_utf8_lossy(alloc, err.as_slice())?;
    format!(in alloc; "{status}|{out}|{err}")
}

// Each template of these files answers what is wanted of it, on its JSON.
fn all_answer(
    alloc: Global,
    files: &[(&str, &[u8])],
    rows: &[(&str, &str, &str)],
) -> Result<(), Fail> {
    let mut engine = Engine::new(alloc);
    let library = library(alloc, &mut engine, files)?;
    for (name, json, wanted) in rows {
        let line = answer(alloc, &engine, &library, name, json)?;
        if line.as_str() != *wanted {
            return Err(Fail::new(format_args!("{line:?} in place of {wanted:?}, of {name}")));
        }
    }
    Ok(())
}

#[test]
fn renders(rt: HostRuntime) -> Result<(), Fail> {
    let files: [(&str, &[u8]); 3] = [
        ("page", b"{% include \"mail/head.txt\" %}{{ a }}"),
        ("mail/head.txt", b"[{{ b }}]"),
        ("link", b"{{ b }}"),
    ];
    all_answer(
        rt.alloc(),
        files.as_slice(),
        &[
            ("page", "{\"a\": 1, \"b\": true}", "0|[true]1|"),
            ("link", "{\"b\": \"<y>\"}", "0|<y>|"),
        ],
    )
}

#[test]
fn escapes(rt: HostRuntime) -> Result<(), Fail> {
    let alloc = rt.alloc();
    let mut engine = Engine::new(alloc);
    engine.add_formatter(CowStr::Borrowed("verbatim"), Box::new(alloc, Verbatim)?)?;
    engine.set_default_formatter(Box::new(alloc, Escape)?);
    let files: [(&str, &[u8]); 1] = [("page", b"<p>{{ a }}</p>{{ a | verbatim }}")];
    let library = library(alloc, &mut engine, files.as_slice())?;
    let line = answer(alloc, &engine, &library, "page", "{\"a\": \"<b>\"}")?;
    assert_eq!(&rt; line.as_str(), "0|<p>&lt;b&gt;</p><b>|");
    Ok(())
}

#[test]
fn reports_what_is_reached(rt: HostRuntime) -> Result<(), Fail> {
    let files: [(&str, &[u8]); 3] = [
        ("page", b"{% if a %}{% include \"bytes\" %}{% endif %}x"),
        ("bytes", b"a\xff"),
        ("to unreadable", b"{% include \"unreadable\" %}"),
    ];
    all_answer(
        rt.alloc(),
        files.as_slice(),
        &[
            ("page", "{\"a\": false}", "0|x|"),
            (
                "page",
                "{\"a\": true}",
                "1||upon-tool: bytes is not UTF-8\n",
            ),
            (
                "to unreadable",
                "{}",
                "1||upon-tool: cannot read unreadable: entity not found\n",
            ),
            ("absent", "{}", "2||upon-tool: cannot read absent: entity not found\n"),
        ],
    )
}

#[test]
fn shows_the_fault_that_is_reached(rt: HostRuntime) -> Result<(), Fail> {
    let alloc = rt.alloc();
    let mut engine = Engine::new(alloc);
    let files: [(&str, &[u8]); 2] = [("wr\"ng", b"{{"), ("page", b"{% include \"wr\\\"ng\" %}")];
    let library = library(alloc, &mut engine, files.as_slice())?;
    let line = answer(alloc, &engine, &library, "page", "{}")?;
    assert!(&rt;
        line.as_str()
            .starts_with("1||invalid syntax\n\n  --> wr\"ng:1:3\n"),
        "{line}"
    );
    Ok(())
}

#[test]
fn stops_at_limits(rt: HostRuntime) -> Result<(), Fail> {
    let alloc = rt.alloc();
    let mut engine = Engine::new(alloc);
    let files: [(&str, &[u8]); 1] = [("page", b"ab{{ x }}cd")];
    let value = value(alloc, "{\"x\": 12}")?;
    let library = library(alloc, &mut engine, files.as_slice())?;
    for (steps, output, wanted) in [
        (None, None, "0|ab12cd|"),
        (Some(5), None, "0|ab12cd|"),
        (None, Some(6), "0|ab12cd|"),
        (Some(5), Some(6), "0|ab12cd|"),
        (Some(4), None, "1|ab12cd|render error\n\n  --> page:1:10\n"),
        (Some(0), None, "1||render error\n\n  --> page:1:1\n"),
        (None, Some(5), "1|ab12|render error\n\n  --> page:1:10\n"),
        (None, Some(0), "1||render error\n\n  --> page:1:1\n"),
    ] {
        let page = Page {
            name: "page",
            value: &value,
            limits: Limits { steps, output, values: None },
        };
        let line = shown(alloc, &engine, &library, &page)?;
        if !line.as_str().starts_with(wanted) {
            return Err(Fail::new(format_args!("{line:?} in place of {wanted:?}")));
        }
    }
    Ok(())
}
