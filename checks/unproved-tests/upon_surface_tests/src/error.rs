// Names of `upon::error`.
use std::alloc::{AllocError, Global};
use std::fmt::Display;
use std::io;
use std::test::Fail;
use upon::error::{Error, ErrorKind};
use upon::types::Span;

pub fn kind(error: &Error) -> usize {
    match error.kind() {
        ErrorKind::Syntax => 0,
        ErrorKind::Serialize => 1,
        ErrorKind::Render => 2,
        ErrorKind::Function => 3,
        ErrorKind::Format => 4,
        ErrorKind::Io(_error) => 5,
        ErrorKind::OutOfMemory => 6,
    }
}

pub fn template_name(error: &Error) -> Option<&str> {
    error.template_name()
}

pub fn reason(error: &Error) -> Option<&str> {
    error.reason()
}

pub fn place(error: &Error) -> Option<Span> {
    error.place()
}

pub fn io_error(error: &Error) -> Option<&io::Error> {
    error.io_error()
}

fn shows<T: Display>(_one: &T) {}

pub fn one_line(error: &Error) {
    shows(error)
}

pub fn pretty(alloc: Global, error: &Error) -> Result<String, AllocError> {
    error.pretty(alloc)
}

pub fn from_parts(
    alloc: Global,
    kind: ErrorKind,
    reason: Option<&str>,
    at: Option<(&str, Span)>,
) -> Error {
    Error::from_parts(alloc, kind, reason, at)
}

pub fn with_name(alloc: Global, error: Error, name: &str) -> Error {
    error.with_name(alloc, name)
}

fn into<T: Into<Error>>(given: T) -> Error {
    given.into()
}

pub fn froms(writers: io::Error) -> Error {
    drop(into(std::fmt::Error));
    into(writers)
}

#[test]
fn parts(rt: HostRuntime) -> std::result::Result<(), Fail> {
    let alloc = rt.alloc();
    let span = Span { m: 1, n: 2 };
    let unnamed = from_parts(alloc, ErrorKind::Render, Some("no"), Some(("abc", span)));
    let error = with_name(alloc, unnamed, "page");
    assert_eq!(rt; kind(&error), 2);
    assert!(rt; template_name(&error) == Some("page"));
    assert!(rt; reason(&error) == Some("no"));
    assert!(rt; place(&error) == Some(span));
    assert!(rt; io_error(&error).is_none());
    assert!(rt; pretty(alloc, &error)?.contains("no"));
    one_line(&error);
    Ok(())
}
