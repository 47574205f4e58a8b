// Large arguments.
use std::process::Abort;
use std::test::Fail;
use upon_calls::check::check;
use upon_calls::failure::Failure;
use upon_calls::render::render;

// Many templates, each of which includes the next.
#[test]
fn many_templates(rt: HostRuntime) -> Result<(), Fail> {
    let alloc = rt.alloc();
    let mut templates = String::from_str(alloc, "{")?;
    for i in 0..2_000u32 {
        templates.push_str(format!(in alloc; "\"{i}\": \"x{{% include \\\"n\\\" %}}\", ")?.as_str())?;
    }
    templates.push_str("\"n\": \"y\"}")?;
    let given = render(alloc, templates.as_bytes(), b"", b"1999", b"");
    assert!(&rt; matches!(given, Ok(text) if text.as_str() == "xy"), "the last one");
    let given = check(alloc, templates.as_bytes(), b"");
    assert!(&rt; given.is_ok(), "all are right");
    Ok(())
}

// A text with more missing includes than are shown.
#[test]
fn many_missing(rt: HostRuntime) -> Result<(), Fail> {
    let alloc = rt.alloc();
    let mut templates = String::from_str(alloc, "{\"a\": \"")?;
    for i in 0..300u32 {
        templates.push_str(format!(in alloc; "{{% include \\\"{i}\\\" %}}")?.as_str())?;
    }
    templates.push_str("\"}")?;
    let Err(Failure::Faults(pictures)) = check(alloc, templates.as_bytes(), b"") else {
        return Err(Fail::new("a fault is missing"));
    };
    let count = pictures.as_str().matches("unknown template").count();
    assert!(&rt; count == 100, "{count} pictures");
    Ok(())
}
