// A template by its name, on what serde writes.
use std::alloc::Global;
use std::borrow::CowStr;
use std::test::Fail;
use upon::{Engine, Result};

// The text of the engine's template on a number, if it is there.
fn on_number(engine: &Engine<'_>, name: &str) -> Option<Result<String>> {
    let template = engine.get_template(name)?;
    Some(template.render(5u8).to_string())
}

// An engine with one template.
fn engine_of<'e>(alloc: Global, name: &'e str, source: &'e str) -> Result<Engine<'e>> {
    let mut engine = Engine::new(alloc);
    engine.add_template(CowStr::Borrowed(name), CowStr::Borrowed(source))?;
    Ok(engine)
}

#[test]
fn a_number(rt: HostRuntime) -> std::result::Result<(), Fail> {
    let engine = engine_of(rt.alloc(), "t", "{% if false %}{{ a }}{% endif %}b")?;
    let Some(text) = on_number(&engine, "t") else {
        return Err(Fail::new("no template"));
    };
    assert_eq!(&rt; text?.as_str(), "b");
    Ok(())
}
