// Errors: what the calls that make them and the getters say.
use std::test::Fail;
use std::{fmt, io};
use upon_types::error::{Error, ErrorKind};
use upon_types::types::{Span, slice};

#[test]
fn lines(rt: HostRuntime) -> Result<(), Fail> {
    let alloc = rt.alloc();
    for (kind, line) in [
        (ErrorKind::Syntax, "invalid syntax: why"),
        (ErrorKind::Serialize, "serialize error: why"),
        (ErrorKind::Render, "render error: why"),
        (ErrorKind::Function, "function error: why"),
        (ErrorKind::Format, "format error: why"),
        (ErrorKind::OutOfMemory, "out of memory: why"),
    ] {
        let error = Error::from_parts(alloc, kind, Some("why"), None);
        assert_eq!(rt; error.to_string(alloc)?.as_str(), line);
    }
    Ok(())
}

#[test]
fn parts(rt: HostRuntime) -> Result<(), Fail> {
    let alloc = rt.alloc();
    let span = Span::from(1..3);
    let error = Error::from_parts(alloc, ErrorKind::Render, None, Some(("abcd", span)));
    let error = error.with_name(alloc, "t");
    assert_eq!(rt; error.template_name(), Some("t"));
    assert_eq!(rt; error.reason(), None);
    assert_eq!(rt; error.place(), Some(Span { m: 1, n: 3 }));
    assert!(rt; matches!(error.kind(), ErrorKind::Render));
    Ok(())
}

#[test]
fn from_other_errors(rt: HostRuntime) -> Result<(), Fail> {
    let alloc = rt.alloc();
    let error = Error::from(io::Error::from(io::ErrorKind::NotFound));
    assert_eq!(rt; error.to_string(alloc)?.as_str(), "io error");
    assert!(rt; error.io_error().is_some());
    let error = Error::from(fmt::Error);
    assert_eq!(rt; error.to_string(alloc)?.as_str(), "format error");
    assert!(rt; error.io_error().is_none());
    Ok(())
}

#[test]
fn spans(rt: HostRuntime) {
    let span = Span { m: 2, n: 4 }.combine(Span { m: 1, n: 3 });
    assert_eq!(rt; span, Span { m: 1, n: 4 });
    assert_eq!(rt; slice("abcdef", span), "bcd");
}
