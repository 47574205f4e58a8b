// A rendering runs the program that the template keeps: no text is parsed again, and what is skipped takes no memory.
use crate::starved::{Hoard, refuses};
use std::alloc::{AllocError, Global};
use std::borrow::CowStr;
use std::test::Fail;
use upon::error::ErrorKind;
use upon::{Engine, Value};

// Bytes that a rendering has to do with. Each of the blocks has more in its program.
const ROOM: usize = 4096;

// 1,000 blocks that show nothing.
fn skipped(alloc: Global) -> Result<String, AllocError> {
    let mut source = String::new(alloc);
    for _ in 0..1000u32 {
        source.push_str("{% if false %}{{ a }}{% endif %}")?;
    }
    Ok(source)
}

// Whether the engine's template is rendered to no text, as a text and to a writer.
fn shows_nothing(alloc: Global, engine: &Engine<'_>) -> bool {
    let Some(template) = engine.get_template("t") else {
        return false;
    };
    let mut received = Vec::new(alloc);
    let written = template
        .render_from(&Value::None)
        .to_writer(&mut received)
        .is_ok();
    match template.render_from(&Value::None).to_string() {
        Ok(text) => text.is_empty() && written && received.is_empty(),
        Err(_) => false,
    }
}

// Whether memory is out where the source is compiled again.
fn is_refused(engine: &Engine<'_>, source: &str) -> bool {
    match engine.compile(CowStr::Borrowed(source)) {
        Ok(_) => false,
        Err(error) => matches!(error.kind(), ErrorKind::OutOfMemory),
    }
}

#[test]
fn nothing_is_parsed_again(rt: HostRuntime) -> Result<(), Fail> {
    let alloc = rt.alloc();
    let source = skipped(alloc)?;
    let mut engine = Engine::new(alloc);
    engine.add_template(CowStr::Borrowed("t"), CowStr::Borrowed(source.as_str()))?;
    let mut hoard = Hoard::with_room(alloc, ROOM)?;
    let could_compile = !is_refused(&engine, source.as_str());
    let shows_nothing = shows_nothing(alloc, &engine);
    let is_scarce = refuses(alloc, &mut hoard, 2 * ROOM);
    let is_used_up = hoard.is_some();
    drop(hoard);
    assert!(rt; shows_nothing && is_scarce);
    assert_eq!(rt; could_compile, !is_used_up);
    Ok(())
}
