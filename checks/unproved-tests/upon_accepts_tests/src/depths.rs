// The depths of includes that are said to suffice, and renderings with these and with lesser ones.
use crate::said::{depth_of, said_by};
use std::alloc::Global;
use std::borrow::CowStr;
use std::test::Fail;
use upon::{Engine, Value};
use upon_shape::shape::Shape;

const SAMPLE: &str = r#"{"n": 1, "b": true, "user": {"n": 2}, "rows": [{"n": 3}, {"n": 4}],
    "tree": {"n": 1, "kids": [{"n": 2, "kids": []}]}}"#;

fn sample(alloc: Global) -> Result<Value, Fail> {
    match upon_json::context::context(alloc, Some(SAMPLE), &[]) {
        Ok(sample) => Ok(sample),
        Err(_) => Err(Fail::new(format_args!("the sample is no JSON"))),
    }
}

// An engine with templates by their names, of which `main` is accepted.
fn engine_with(
    alloc: Global,
    templates: &[(&str, &str)],
    shape: &Shape,
) -> Result<Engine<'static>, Fail> {
    let mut engine = Engine::new(alloc);
    for (name, text) in templates {
        let name = CowStr::Owned(String::from_str(alloc, name)?);
        engine.add_template(name, CowStr::Owned(String::from_str(alloc, text)?))?;
    }
    let said = said_by(alloc, &engine, shape)?;
    if said.as_str() != "accepted" {
        return Err(Fail::new(format_args!("{said}")));
    }
    Ok(engine)
}

// Whether a rendering where includes may be so deep has a text; the only fault is that they are too deep.
fn has_text(engine: &mut Engine<'_>, depth: usize, sample: &Value) -> Result<bool, Fail> {
    engine.set_max_include_depth(depth);
    match engine.render_template("main", sample) {
        Some(Ok(_)) => Ok(true),
        Some(Err(error)) => match error.reason() {
            Some(reason) if reason.starts_with("reached maximum include depth") => Ok(false),
            _ => Err(Fail::new(format_args!("{error}"))),
        },
        None => Err(Fail::new(format_args!("no template"))),
    }
}

// The templates end within this depth, and not within a lesser one.
fn ends_within(alloc: Global, templates: &[(&str, &str)], wanted: usize) -> Result<(), Fail> {
    let sample = sample(alloc)?;
    let shape = Shape::of(alloc, &sample)?;
    let mut engine = engine_with(alloc, templates, &shape)?;
    let depth = depth_of(alloc, &engine, &shape)?;
    if depth != Some(wanted) {
        return Err(Fail::new(format_args!("{depth:?} in place of {wanted}, of {templates:?}")));
    }
    if !has_text(&mut engine, wanted, &sample)? || !has_text(&mut engine, wanted + 1, &sample)? {
        return Err(Fail::new(format_args!("too deep: {templates:?}")));
    }
    if wanted > 1 && has_text(&mut engine, wanted - 1, &sample)? {
        return Err(Fail::new(format_args!("not the least depth: {templates:?}")));
    }
    Ok(())
}

// No depth of the templates is known, though they are accepted.
fn ends_unless_deep(alloc: Global, templates: &[(&str, &str)]) -> Result<(), Fail> {
    let shape = Shape::of(alloc, &sample(alloc)?)?;
    let engine = engine_with(alloc, templates, &shape)?;
    let depth = depth_of(alloc, &engine, &shape)?;
    if depth.is_some() {
        return Err(Fail::new(format_args!("{depth:?} of {templates:?}")));
    }
    Ok(())
}

#[test]
fn one_template(rt: HostRuntime) -> Result<(), Fail> {
    let alloc = rt.alloc();
    ends_within(alloc, &[("main", "")], 1)?;
    ends_within(alloc, &[("main", "{{ n }}{% for r in rows %}{{ r.n }}{% endfor %}")], 1)?;
    ends_within(alloc, &[("main", "{{ n }}"), ("t", "{% include \"t\" %}")], 1)
}

#[test]
fn chains(rt: HostRuntime) -> Result<(), Fail> {
    let alloc = rt.alloc();
    let (to_a, to_b, to_c) = ("{% include \"a\" %}", "{% include \"b\" %}", "{% include \"c\" with user %}");
    ends_within(alloc, &[("main", to_a), ("a", "{{ n }}")], 2)?;
    ends_within(alloc, &[("main", to_a), ("a", to_b), ("b", "{{ n }}")], 3)?;
    ends_within(alloc, &[("main", to_a), ("a", to_b), ("b", to_c), ("c", "{{ n }}")], 4)
}

#[test]
fn more_than_one_include(rt: HostRuntime) -> Result<(), Fail> {
    let alloc = rt.alloc();
    let both = "{% include \"a\" %}{% include \"b\" %}";
    let (to_b, to_c) = ("{% include \"b\" %}", "{% include \"c\" %}");
    // Two that include the same one.
    ends_within(alloc, &[("main", both), ("a", to_c), ("b", to_c), ("c", "{{ n }}")], 3)?;
    // One of two that includes the other one.
    ends_within(alloc, &[("main", both), ("a", to_b), ("b", "{{ n }}")], 3)?;
    // Two that include none.
    ends_within(alloc, &[("main", both), ("a", "{{ n }}"), ("b", "{{ n }}")], 2)?;
    // One that is included with two contexts.
    let twice = "{% include \"c\" %}{% include \"c\" with user %}";
    ends_within(alloc, &[("main", twice), ("c", "{{ n }}")], 2)?;
    // In a loop and in a branch.
    let inside = "{% for r in rows %}{% if b %}{% include \"c\" with r %}{% endif %}{% endfor %}";
    ends_within(alloc, &[("main", inside), ("c", "{{ n }}")], 2)
}

#[test]
fn rings(rt: HostRuntime) -> Result<(), Fail> {
    let alloc = rt.alloc();
    let again = "{% if b %}{% include \"main\" %}{% endif %}";
    ends_unless_deep(alloc, &[("main", again)])?;
    ends_unless_deep(alloc, &[("main", "{% include \"a\" %}"), ("a", again)])?;
    // A ring of another template, from which no way leads back.
    let own = "{% if b %}{% include \"a\" %}{% endif %}";
    ends_unless_deep(alloc, &[("main", "{% include \"a\" %}{% include \"c\" %}"), ("a", own), ("c", "")])?;
    // It ends on each tree that is not too deep, which no shape says.
    let kids = "{{ n }}{% for k in kids %}{% include \"t\" with k %}{% endfor %}";
    ends_unless_deep(alloc, &[("main", "{% include \"t\" with tree %}"), ("t", kids)])
}

// A chain that is much longer than includes may be deep.
const LONG: usize = 1_000; // ./test: 70

// So many templates, each of which includes the next one.
fn chain(alloc: Global, count: usize) -> Result<Engine<'static>, Fail> {
    let mut engine = Engine::new(alloc);
    for number in 1..=count {
        let name = if number == 1 {
            String::from_str(alloc, "main")?
        } else {
            format!(in alloc; "t{number}")?
        };
        let next = number + 1;
        let text = if number == count {
            String::from_str(alloc, "{{ n }}")?
        } else {
            format!(in alloc; "{{% include \"t{next}\" %}}")?
        };
        engine.add_template(CowStr::Owned(name), CowStr::Owned(text))?;
    }
    Ok(engine)
}

#[test]
fn long_chains(rt: HostRuntime) -> Result<(), Fail> {
    let alloc = rt.alloc();
    let sample = sample(alloc)?;
    let shape = Shape::of(alloc, &sample)?;
    for (count, wanted) in [(64, Some(64)), (65, None), (LONG, None)] {
        let mut engine = chain(alloc, count)?;
        assert_eq!(&rt; said_by(alloc, &engine, &shape)?.as_str(), "accepted");
        assert_eq!(&rt; depth_of(alloc, &engine, &shape)?, wanted);
        assert_eq!(&rt; has_text(&mut engine, count, &sample)?, true);
        assert_eq!(&rt; has_text(&mut engine, count - 1, &sample)?, false);
    }
    Ok(())
}
