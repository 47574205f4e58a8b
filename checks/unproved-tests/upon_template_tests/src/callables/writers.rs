// Renderings to writers that take little, and that fail.
use crate::callables::added::engine;
use std::alloc::{AllocError, Global};
use std::borrow::CowStr;
use std::io::{self, Write};
use std::process::Abort;
use std::test::Fail;
use upon::Value;
use upon_examples::answers::describe;

// It takes one byte a call. The call of this number fails, or takes no byte.
#[derive(Drop)]
struct Drops {
    received: Vec<u8>,
    calls: usize,
    failing: usize,
    is_full: bool,
}

impl Write for Drops {
    fn write(&mut self, bytes: &[u8]) -> io::Result<usize> {
        self.calls = self.calls.saturating_add(1);
        if self.calls == self.failing {
            if self.is_full {
                return Ok(0);
            }
            return Err(io::Error::from(io::ErrorKind::Other));
        }
        let Some(byte) = bytes.first() else {
            return Ok(0);
        };
        match self.received.push(*byte) {
            Ok(()) => Ok(1),
            Err(_) => Err(io::Error::from(io::ErrorKind::OutOfMemory)),
        }
    }

    fn flush(&mut self) -> io::Result<()> {
        Ok(())
    }
}

// What such a writer receives, and how the rendering ends; `failing` 0 is a writer that does not fail.
fn ends(
    rt: &impl Abort,
    alloc: Global,
    source: &str,
    (failing, is_full): (usize, bool),
    received: &str,
    wanted: &str,
) -> Result<(), Fail> {
    let mut out = Drops {
        received: Vec::new(alloc),
        calls: 0,
        failing,
        is_full,
    };
    let engine = engine(alloc)?;
    let template = engine.compile(CowStr::Borrowed(source))?;
    let end = template
        .render_from(&engine, &Value::None)
        .to_writer(&mut out);
    assert_eq!(rt; out.received.as_slice(), received.as_bytes());
    let line = match end {
        Ok(()) => String::new(alloc),
        Err(error) => describe(alloc, &error)?,
    };
    assert_eq!(rt; line.as_str(), wanted);
    Ok(())
}

#[test]
fn each_call_fails_in_turn(rt: HostRuntime) -> Result<(), Fail> {
    let alloc = rt.alloc();
    let source = "ab{{ 12 }}cd";
    for failing in 1..7 {
        let received = &"ab12cd"[..failing - 1];
        ends(&rt, alloc, source, (failing, false), received, "io error")?;
        ends(&rt, alloc, source, (failing, true), received, "io error")?;
    }
    ends(&rt, alloc, source, (7, false), "ab12cd", "")
}

#[test]
fn a_formatter_that_refuses(rt: HostRuntime) -> Result<(), Fail> {
    let alloc = rt.alloc();
    let source = "x{{ 1 | half }}y";
    ends(
        &rt,
        alloc,
        source,
        (0, false),
        "xab",
        "format error: bad at 8..12",
    )?;
    ends(&rt, alloc, source, (3, false), "xa", "io error")?;
    ends(&rt, alloc, source, (3, true), "xa", "io error")
}

#[test]
fn nothing_is_written_of_nothing(rt: HostRuntime) -> Result<(), Fail> {
    let alloc = rt.alloc();
    ends(
        &rt,
        alloc,
        "{{ \"\" }}{% if 0 %}a{% endif %}",
        (1, false),
        "",
        "",
    )
}
