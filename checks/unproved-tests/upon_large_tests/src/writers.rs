// What writers receive of large texts, which error is reported, and that no writer is flushed.
use std::alloc::{AllocError, Global};
use std::borrow::CowStr;
use std::io::{self, Write};
use std::process::Abort;
use std::test::Fail;
use upon::{Engine, Value};
use upon_examples::answers::describe;
use upon_types::error::ErrorKind;

// It keeps what it receives, and counts its flushes.
#[derive(Drop)]
struct Keeps {
    received: Vec<u8>,
    flushes: u32,
}

impl Write for Keeps {
    fn write(&mut self, bytes: &[u8]) -> io::Result<usize> {
        self.received.extend_from_slice(bytes)?;
        Ok(bytes.len())
    }

    fn flush(&mut self) -> io::Result<()> {
        self.flushes = self.flushes.saturating_add(1);
        Ok(())
    }
}

// How an engine's rendering of a text ends, and what a writer has then.
fn sent(
    alloc: Global,
    engine: &Engine<'_>,
    source: &str,
) -> Result<(String, String, u32), AllocError> {
    let mut out = Keeps {
        received: Vec::new(alloc),
        flushes: 0,
    };
    let line = match engine.render_text_to(source, &Value::None, &mut out) {
        Ok(()) => String::from_str(alloc, "well")?,
        Err(error) => describe(alloc, &error)?,
    };
    let text = String::from_utf8_lossy(alloc, out.received.as_slice())?;
    Ok((line, text, out.flushes))
}

#[test]
fn large_texts(rt: HostRuntime) -> Result<(), Fail> {
    let alloc = rt.alloc();
    let engine = Engine::new(alloc);
    let mut source = String::from_str(alloc, "x")?;
    for _ in 0..16 {
        let half = source.clone()?;
        source.push_str(half.as_str())?;
        let (line, text, _) = sent(alloc, &engine, source.as_str())?;
        assert!(&rt; line.as_str() == "well" && text == source, "{line}");
    }
    Ok(())
}

#[test]
fn no_writer_is_flushed(rt: HostRuntime) -> Result<(), Fail> {
    let alloc = rt.alloc();
    for source in ["", "x", "x{{ 1 }}", "x{{ y }}", "{{"] {
        let (_, _, flushes) = sent(alloc, &Engine::new(alloc), source)?;
        assert_eq!(&rt; flushes, 0, "{source}");
    }
    Ok(())
}

#[test]
fn the_error_is_the_templates(rt: HostRuntime) -> Result<(), Fail> {
    let alloc = rt.alloc();
    let engine = Engine::new(alloc);
    let (line, text, _) = sent(alloc, &engine, "a{{ 1 }}{{ y }}b")?;
    let wanted = "render error: not found in this scope at 11..12";
    assert!(&rt; line.as_str() == wanted && text.as_str() == "a1", "{line}");
    Ok(())
}

#[test]
fn the_error_is_that_of_a_template_of_the_engine(rt: HostRuntime) -> Result<(), Fail> {
    let alloc = rt.alloc();
    let mut engine = Engine::new(alloc);
    engine.add_template(CowStr::Borrowed("t"), CowStr::Borrowed("a{{ y }}b"))?;
    let mut received = Vec::new(alloc);
    let Some(Err(error)) = engine.render_template_to("t", &Value::None, &mut received) else {
        return Err(Fail::new("no error"));
    };
    let wanted = "render error: not found in this scope at 4..5 in t";
    assert_eq!(&rt; describe(alloc, &error)?.as_str(), wanted);
    assert!(&rt; received.as_slice() == b"a".as_slice());
    Ok(())
}

// It fails with this error of the system.
#[derive(Drop)]
struct Fails {
    code: i32,
}

impl Write for Fails {
    fn write(&mut self, _bytes: &[u8]) -> io::Result<usize> {
        Err(io::Error::from_raw_os_error(self.code))
    }

    fn flush(&mut self) -> io::Result<()> {
        Ok(())
    }
}

// The error that a writer answers is reported, and no other one of its kind.
#[test]
fn the_error_is_the_writers(rt: HostRuntime) -> Result<(), Fail> {
    let alloc = rt.alloc();
    let engine = Engine::new(alloc);
    for code in [5, 28, 32, 122] {
        let Err(error) = engine.render_text_to("x", &Value::None, &mut Fails { code }) else {
            return Err(Fail::new("no error"));
        };
        let ErrorKind::Io(error) = error.kind() else {
            return Err(Fail::new("no error of a writer"));
        };
        assert_eq!(&rt; error.raw_os_error(), Some(code));
    }
    Ok(())
}
