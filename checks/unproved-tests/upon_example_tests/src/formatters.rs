// Tests of the formatters of docs/FUNCTIONS.md.
use std::test::Fail;
use upon_examples::formatters::{address, entry, quotation, table_row};

#[test]
fn quotes_a_text(rt: HostRuntime) -> std::result::Result<(), Fail> {
    let text = quotation(rt.alloc())?;
    assert_eq!(rt; text.as_str(), "\"Hamlet\", 1603");
    Ok(())
}

#[test]
fn numbers_an_integer(rt: HostRuntime) -> std::result::Result<(), Fail> {
    let text = entry(rt.alloc())?;
    assert_eq!(rt; text.as_str(), "No. 7, Hamlet");
    Ok(())
}

#[test]
fn writes_a_hyphen(rt: HostRuntime) -> std::result::Result<(), Fail> {
    let text = table_row(rt.alloc())?;
    assert_eq!(rt; text.as_str(), "Ann: -");
    Ok(())
}

#[test]
fn refuses_no_value(rt: HostRuntime) -> std::result::Result<(), Fail> {
    let alloc = rt.alloc();
    let Err(error) = address(alloc) else {
        return Err(Fail::new("no error"));
    };
    let line = error.to_string(alloc)?;
    assert_eq!(rt; line.as_str(), "format error: a value is missing");
    Ok(())
}
