// Values, and what formatters write for them.
use std::alloc::{AllocError, Global};
use std::process::Abort;
use upon_fmt::fmt::{Format, Formatter};
use upon_types::value::Value;

/// A text, and what is written for it.
pub type Row = (&'static str, &'static str);

/// Returns what a formatter writes for a value, or its message in brackets.
pub fn written<F: Format>(alloc: Global, format: &F, value: &Value) -> Result<String, AllocError> {
    let mut f = Formatter::new(alloc);
    match format.format(&mut f, value) {
        Ok(()) => f.into_text().ok_or(AllocError),
        Err(error) => format!(in alloc; "[{error}]"),
    }
}

/// Asserts what a formatter writes for a value, or its message in brackets.
pub fn is<F: Format>(
    rt: &impl Abort,
    alloc: Global,
    format: &F,
    value: &Value,
    wanted: &str,
) -> Result<(), AllocError> {
    let text = written(alloc, format, value)?;
    assert_eq!(rt; text.as_str(), wanted);
    Ok(())
}

/// Asserts what a formatter writes for texts.
pub fn are<F: Format>(
    rt: &impl Abort,
    alloc: Global,
    format: &F,
    rows: &[Row],
) -> Result<(), AllocError> {
    for (text, wanted) in rows {
        is(rt, alloc, format, &Value::from_text(alloc, text)?, wanted)?;
    }
    Ok(())
}

/// Asserts that a formatter refuses lists and maps as the default one does.
pub fn refuses<F: Format>(rt: &impl Abort, alloc: Global, format: &F) -> Result<(), AllocError> {
    let list = Value::List(Vec::new(alloc));
    is(
        rt,
        alloc,
        format,
        &list,
        "[expression evaluated to unformattable type list]",
    )?;
    let map = Value::from_entries(alloc, Vec::<(String, Value)>::new(alloc).into_iter())?;
    is(
        rt,
        alloc,
        format,
        &map,
        "[expression evaluated to unformattable type map]",
    )
}
