// What a template needs, of many templates that include each other in a ring.
use std::alloc::Global;
use std::borrow::CowStr;
use std::process::Abort;
use std::test::Fail;
use upon::{Engine, needs_of};

// An engine with so many templates: each shows one of ten names and includes the next, and the last the first.
fn ring(alloc: Global, many: usize) -> Result<Engine<'static>, Fail> {
    let mut engine = Engine::new(alloc);
    for i in 0..many {
        let name = format!(in alloc; "t{i}")?;
        let next = i.wrapping_add(1).checked_rem(many).unwrap_or(0);
        let shown = i.checked_rem(10).unwrap_or(0);
        let source = format!(in alloc; "{{{{ n{shown} }}}}{{% include \"t{next}\" %}}")?;
        engine.add_template(CowStr::Owned(name), CowStr::Owned(source))?;
    }
    Ok(engine)
}

const RING: usize = 1_000; // ./test: 100

#[test]
fn a_ring(rt: HostRuntime) -> Result<(), Fail> {
    let alloc = rt.alloc();
    let engine = ring(alloc, RING)?;
    let Some(needs) = needs_of(&engine, "t7") else {
        return Err(Fail::new(format_args!("there is such a template")));
    };
    let needs = needs?;
    assert_eq!(&rt; needs.names().len(), 10);
    assert_eq!(&rt; needs.templates().len(), RING);
    assert_eq!(&rt; needs.missing().len(), 0);
    assert!(&rt; !needs.is_whole());
    Ok(())
}

const NAMES: usize = 2_000; // ./test: 200

// Many names in one template, in loops too: each is needed.
#[test]
fn many_names(rt: HostRuntime) -> Result<(), Fail> {
    let alloc = rt.alloc();
    let mut source = String::new(alloc);
    for i in 0..NAMES {
        let one = format!(in alloc; "{{{{ n{i} }}}}")?;
        source.push_str(one.as_str())?;
    }
    let looped = format!(in alloc; "{{% for x in xs %}}{{{{ x }}}}{source}{{% endfor %}}")?;
    let mut engine = Engine::new(alloc);
    engine.add_template(CowStr::Borrowed("plain"), CowStr::Owned(source))?;
    engine.add_template(CowStr::Borrowed("looped"), CowStr::Owned(looped))?;
    for (name, many) in [("plain", NAMES), ("looped", NAMES + 1)] {
        let Some(needs) = needs_of(&engine, name) else {
            return Err(Fail::new("there is such a template"));
        };
        assert_eq!(&rt; needs?.names().len(), many);
    }
    Ok(())
}

// A name may be long: of the context, and of a template.
#[test]
fn long_names(rt: HostRuntime) -> Result<(), Fail> {
    let alloc = rt.alloc();
    let mut name = String::from_str(alloc, "n")?;
    for _ in 0..12 {
        let half = name.clone()?;
        name.push_str(half.as_str())?;
        let mut engine = Engine::new(alloc);
        let source = format!(in alloc; "{{{{ {name} }}}}{{% include \"{name}\" %}}")?;
        engine.add_template(CowStr::Owned(name.clone()?), CowStr::Owned(source))?;
        let Some(needs) = needs_of(&engine, name.as_str()) else {
            return Err(Fail::new("there is such a template"));
        };
        let needs = needs?;
        assert!(&rt; needs.names() == [name.as_str()].as_slice());
        assert!(&rt; needs.templates() == [name.as_str()].as_slice());
    }
    Ok(())
}
