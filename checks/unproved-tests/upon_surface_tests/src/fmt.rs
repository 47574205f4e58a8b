// Names of `upon::fmt`.
use std::alloc::{AllocError, Global};
use std::fmt::Display;
use upon::Value;
use std::test::Fail;
use upon::fmt::{self, DefaultFormat, Error, Format, Formatter};

pub fn write_str(f: &mut Formatter, text: &str) -> fmt::Result {
    f.write_str(text)
}

pub fn write_char(f: &mut Formatter, character: char) -> fmt::Result {
    f.write_char(character)
}

pub fn out_of_memory(f: &mut Formatter) {
    f.out_of_memory()
}

fn into<T: Into<Error>>(given: T) -> Error {
    given.into()
}

pub fn froms(message: String) -> Error {
    drop(into(std::fmt::Error));
    into(message)
}

pub fn from_text(alloc: Global, message: &str) -> Result<Error, AllocError> {
    Error::from_text(alloc, message)
}

fn shows<T: Display>(_one: &T) {}

pub fn displays(error: &Error) {
    shows(error)
}

pub fn default(f: &mut Formatter, value: &Value) -> fmt::Result {
    fmt::default(f, value)
}

fn drops<T: Drop>(_one: &T) {}

pub fn format<F: Format>(formatter: &F, f: &mut Formatter, value: &Value) -> fmt::Result {
    drops(formatter);
    formatter.format(f, value)
}

pub fn boxed(formatter: Box<dyn Format>, f: &mut Formatter, value: &Value) -> fmt::Result {
    formatter.format(f, value)
}

#[test]
fn faults(rt: HostRuntime) -> std::result::Result<(), Fail> {
    let alloc = rt.alloc();
    displays(&from_text(alloc, "no")?);
    displays(&froms(String::from_str(alloc, "no")?));
    let mut f = Formatter::new(alloc);
    assert!(rt; write_str(&mut f, "a").is_ok() && write_char(&mut f, 'b').is_ok());
    assert!(rt; default(&mut f, &Value::Integer(1)).is_ok());
    let boxed_default = Box::new(alloc, DefaultFormat)?;
    assert!(rt; boxed(boxed_default, &mut f, &Value::Integer(2)).is_ok());
    assert!(rt; f.text() == Some("ab12"));
    out_of_memory(&mut f);
    assert!(rt; f.text().is_none());
    Ok(())
}
