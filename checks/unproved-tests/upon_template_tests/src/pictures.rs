// Pictures of faults: the lines that show a fault's span in its source.
use std::alloc::Global;
use std::borrow::CowStr;
use std::collections::BTreeMap;
use std::process::Abort;
use std::test::Fail;
use upon::error::ErrorKind;
use upon::types::Span;
use upon::{Engine, Error, Value};

// What is reported where a template is rendered on the empty map, which binds no name.
fn shows(rt: &impl Abort, alloc: Global, source: &str, wanted: &str) -> Result<(), Fail> {
    let engine = Engine::new(alloc);
    let template = engine.compile(CowStr::Borrowed(source))?;
    let context = Value::from(BTreeMap::new(alloc));
    match template.render_from(&engine, &context).to_string() {
        Ok(_) => Err(Fail::from("no fault")),
        Err(error) => {
            assert_eq!(rt; error.pretty(alloc)?.as_str(), wanted);
            Ok(())
        }
    }
}

#[test]
fn lines_and_columns(rt: HostRuntime) -> Result<(), Fail> {
    let alloc = rt.alloc();
    for (source, wanted) in [
        (
            "\u{e9}\n{{ x }}",
            "render error\n\n  --> <anonymous>:2:4\n   |\n 2 | {{ x }}\n   |    ^--\n   |\n   = reason: not found in this scope\n",
        ),
        (
            "\u{65e5}{{ x }}",
            "render error\n\n  --> <anonymous>:1:6\n   |\n 1 | \u{65e5}{{ x }}\n   |      ^--\n   |\n   = reason: not found in this scope\n",
        ),
        (
            "\n\n\n\n\n\n\n\n\n{{ x }}",
            "render error\n\n   --> <anonymous>:10:4\n    |\n 10 | {{ x }}\n    |    ^--\n    |\n    = reason: not found in this scope\n",
        ),
        (
            "{{ name }}",
            "render error\n\n  --> <anonymous>:1:4\n   |\n 1 | {{ name }}\n   |    ^^^^\n   |\n   = reason: not found in this scope\n",
        ),
    ] {
        shows(&rt, alloc, source, wanted)?;
    }
    Ok(())
}

#[test]
fn end_of_the_text(rt: HostRuntime) -> Result<(), Fail> {
    let alloc = rt.alloc();
    let error = Error::from_parts(
        alloc,
        ErrorKind::Syntax,
        Some("expected token, found EOF"),
        Some(("{{\n", Span { m: 3, n: 3 })),
    );
    assert_eq!(rt;
        error.pretty(alloc)?.as_str(),
        "invalid syntax\n\n  --> <anonymous>:2:1\n   |\n 2 | \n   | ^--\n   |\n   = reason: expected token, found EOF\n"
    );
    Ok(())
}

#[test]
fn without_a_span(rt: HostRuntime) -> Result<(), Fail> {
    let alloc = rt.alloc();
    let error = Error::from_parts(alloc, ErrorKind::Render, Some("why"), None);
    assert_eq!(rt; error.pretty(alloc)?.as_str(), "render error: why");
    let error = Error::from_parts(
        alloc,
        ErrorKind::Format,
        None,
        Some(("ab", Span { m: 0, n: 1 })),
    );
    assert_eq!(rt; error.pretty(alloc)?.as_str(), "format error");
    Ok(())
}
