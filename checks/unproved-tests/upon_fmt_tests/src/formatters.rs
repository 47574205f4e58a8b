// What formatters write, and refuse.
use std::alloc::{AllocError, Global};
use std::process::Abort;
use std::test::Fail;
use upon_fmt::fmt::{DefaultFormat, Error, Format, Formatter, default};
use upon_types::value::Value;

// What the default formatter writes for a value, or its message in brackets.
fn written(alloc: Global, value: &Value) -> Result<String, AllocError> {
    let mut f = Formatter::new(alloc);
    match default(&mut f, value) {
        Ok(()) => f.into_text().ok_or(AllocError),
        Err(error) => format!(in alloc; "[{error}]"),
    }
}

fn is(rt: &impl Abort, alloc: Global, value: &Value, wanted: &str) -> Result<(), AllocError> {
    let text = written(alloc, value)?;
    assert_eq!(rt; text.as_str(), wanted);
    Ok(())
}

#[test]
fn default_rows(rt: HostRuntime) -> Result<(), Fail> {
    let alloc = rt.alloc();
    is(&rt, alloc, &Value::None, "")?;
    is(&rt, alloc, &Value::Bool(true), "true")?;
    is(&rt, alloc, &Value::Bool(false), "false")?;
    is(
        &rt,
        alloc,
        &Value::Integer(i64::MIN),
        "-9223372036854775808",
    )?;
    is(&rt, alloc, &Value::from_text(alloc, "<ü>")?, "<ü>")?;
    Ok(())
}

#[test]
fn no_text_for_lists_and_maps(rt: HostRuntime) -> Result<(), Fail> {
    let alloc = rt.alloc();
    let list = Value::List(Vec::new(alloc));
    is(
        &rt,
        alloc,
        &list,
        "[expression evaluated to unformattable type list]",
    )?;
    let map = Value::from_entries(alloc, Vec::<(String, Value)>::new(alloc).into_iter())?;
    is(
        &rt,
        alloc,
        &map,
        "[expression evaluated to unformattable type map]",
    )?;
    Ok(())
}

#[test]
fn default_format_writes_the_same(rt: HostRuntime) -> Result<(), Fail> {
    let alloc = rt.alloc();
    let mut f = Formatter::new(alloc);
    assert!(rt; DefaultFormat.format(&mut f, &Value::Integer(7)).is_ok());
    assert_eq!(rt; f.into_text().ok_or("marked")?.as_str(), "7");
    Ok(())
}

#[test]
fn texts_and_characters_are_appended(rt: HostRuntime) -> Result<(), Fail> {
    let mut f = Formatter::new(rt.alloc());
    assert!(rt; f.write_str("a").is_ok());
    assert!(rt; f.write_char('ß').is_ok());
    assert_eq!(rt; f.into_text().ok_or("marked")?.as_str(), "aß");
    Ok(())
}

#[test]
fn nothing_is_appended_after_the_mark(rt: HostRuntime) -> Result<(), Fail> {
    let mut f = Formatter::new(rt.alloc());
    f.out_of_memory();
    assert!(rt; f.write_str("").is_err());
    assert!(rt; f.write_char('a').is_err());
    assert!(rt; f.into_text().is_none());
    Ok(())
}

#[test]
fn messages(rt: HostRuntime) -> Result<(), Fail> {
    let alloc = rt.alloc();
    let shown = format!(in alloc; "{}", Error::from_text(alloc, "no floats")?)?;
    assert_eq!(rt; shown.as_str(), "no floats");
    let owned = Error::from(String::from_str(alloc, "none")?);
    assert_eq!(rt; owned.message().ok_or("no message")?.as_str(), "none");
    let none = Error::from(std::fmt::Error);
    let shown = format!(in alloc; "{none}")?;
    assert_eq!(rt; shown.as_str(), "format error");
    assert!(rt; none.message().is_none());
    Ok(())
}
