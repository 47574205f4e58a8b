// The example of the page on templates that cannot fail.
use std::alloc::{AllocError, Global};
use std::borrow::CowStr;
use std::test::Fail;
use upon::{Engine, Value};
use upon_shape_check::accepted::Accepted;
use upon_shape_check::accepts::accepts;
use upon_shape_check::refusal::Refusal;
use upon_shape_check::declared::Declared;
use upon_shape::shape::Shape;

fn is_sure(
    alloc: Global,
    engine: &Engine<'_>,
    name: &str,
    samples: &[Value],
) -> Result<bool, AllocError> {
    let shape = Shape::of_samples(alloc, samples)?;
    let declared = Declared::new(alloc, Shape::shown());
    match accepts(alloc, engine, &declared, name, &shape) {
        Ok(Accepted::EndsWithin(depth)) => Ok(depth <= 64),
        Ok(Accepted::EndsUnlessDeep) => Ok(false),
        Err(Refusal::Memory(error)) => Err(error),
        Err(_) => Ok(false),
    }
}

#[test]
fn a_page_is_sure(rt: HostRuntime) -> Result<(), Fail> {
    let alloc = rt.alloc();
    let mut engine = Engine::new(alloc);
    engine.add_template(CowStr::Borrowed("list"), CowStr::Borrowed("{% for x in xs %}{{ x }}{% endfor %}"))?;
    engine.add_template(CowStr::Borrowed("first"), CowStr::Borrowed("{{ xs.0 }}"))?;
    let mut samples = Vec::new(alloc);
    for text in [r#"{"xs": [1, "a"]}"#, r#"{"xs": []}"#] {
        match upon_json::context::context(alloc, Some(text), &[]) {
            Ok(sample) => samples.push(sample)?,
            Err(_) => return Err(Fail::new(format_args!("no JSON: {text}"))),
        }
    }
    assert!(&rt; is_sure(alloc, &engine, "list", &samples)?);
    assert!(&rt; !is_sure(alloc, &engine, "first", &samples)?);
    assert!(&rt; !is_sure(alloc, &engine, "none", &samples)?);
    Ok(())
}
