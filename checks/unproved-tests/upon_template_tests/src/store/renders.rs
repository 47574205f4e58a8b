// What a store of a few templates renders, and what it keeps.
use std::alloc::{AllocError, Global};
use std::borrow::CowStr;
use std::test::Fail;
use upon::{Engine, Value};
use upon_store::store::{Store, StoreError};
use upon_examples::answers::describe;

const TEMPLATES: [(&str, &str); 9] = [
    (
        "a/main",
        "{% include \"x\" %}{% include \"../b/y\" %}{% include \"/z\" %}",
    ),
    ("a/x", "1"),
    ("b/y", "2{% include \"x\" %}"),
    ("z", "3"),
    ("a/up", "{% include \"../../z\" %}"),
    ("a/no", "{% include \"q\" %}"),
    ("a/empty", "{% include \"x//x\" %}"),
    ("a/top", "-{% include \"..\" %}"),
    ("a/dot", "{% include \"././x\" %}"),
];

// How a call ends, as one line.
fn ended(alloc: Global, end: Result<(), StoreError>) -> Result<String, AllocError> {
    match end {
        Ok(()) => String::from_str(alloc, "well"),
        Err(StoreError::BadPath) => String::from_str(alloc, "bad path"),
        Err(StoreError::NotFound) => String::from_str(alloc, "not found"),
        Err(StoreError::Engine(error)) => describe(alloc, &error),
        Err(StoreError::OutOfMemory) => String::from_str(alloc, "out of memory"),
    }
}

// What a store writes of a template, and how it ends.
fn line(
    alloc: Global,
    store: &Store<'_>,
    engine: &Engine<'_>,
    path: &str,
) -> Result<String, AllocError> {
    let mut out = Vec::new(alloc);
    let end = ended(alloc, store.render(engine, path, &Value::None, &mut out))?;
    match str::from_utf8(&out) {
        Ok(text) => format!(in alloc; "{text}: {end}"),
        Err(_) => String::from_str(alloc, "no text"),
    }
}

#[test]
fn renderings(rt: HostRuntime) -> Result<(), Fail> {
    let alloc = rt.alloc();
    let engine = Engine::new(alloc);
    let mut store = Store::new(alloc);
    for (path, source) in TEMPLATES {
        let end = ended(alloc, store.add(&engine, path, CowStr::Borrowed(source)))?;
        assert_eq!(&rt; end.as_str(), "well");
    }
    for (path, wanted) in [
        ("a/main", "1213: well"),
        ("a/up", ": render error: bad template path at 11..20"),
        ("a/no", ": render error: template not found at 11..14"),
        ("a/empty", ": render error: bad template path at 11..17"),
        ("a/top", "-: render error: bad template path at 12..16"),
        ("a/dot", "1: well"),
        ("a//x", ": bad path"),
        ("", ": bad path"),
        ("a/q", ": not found"),
    ] {
        let line = line(alloc, &store, &engine, path)?;
        assert_eq!(&rt; line.as_str(), wanted);
    }
    Ok(())
}

#[test]
fn additions(rt: HostRuntime) -> Result<(), Fail> {
    let alloc = rt.alloc();
    let engine = Engine::new(alloc);
    let mut store = Store::new(alloc);
    for (path, source, wanted, text) in [
        ("a", "1", "well", "1: well"),
        (
            "a",
            "{{",
            "invalid syntax: expected token, found EOF at 2..2",
            "1: well",
        ),
        ("a", "2", "well", "2: well"),
        ("/a", "{{", "bad path", ": bad path"),
        (
            "b",
            "{{",
            "invalid syntax: expected token, found EOF at 2..2",
            ": not found",
        ),
    ] {
        let end = ended(alloc, store.add(&engine, path, CowStr::Borrowed(source)))?;
        assert_eq!(&rt; end.as_str(), wanted);
        let line = line(alloc, &store, &engine, path)?;
        assert_eq!(&rt; line.as_str(), text);
    }
    assert!(&rt; store.get("a").is_some() && store.get("b").is_none());
    assert!(&rt; store.remove("a") && !store.remove("a") && store.get("a").is_none());
    Ok(())
}

#[test]
fn paths_ascend(rt: HostRuntime) -> Result<(), Fail> {
    let alloc = rt.alloc();
    let engine = Engine::new(alloc);
    let mut store = Store::new(alloc);
    for path in ["b/y", "a/x", "z", "a", "a/main", "b/y"] {
        let end = ended(alloc, store.add(&engine, path, CowStr::Borrowed("")))?;
        assert_eq!(&rt; end.as_str(), "well");
    }
    let mut all = String::new(alloc);
    for path in store.paths()? {
        all.push_str(path)?;
        all.push_str(" ")?;
    }
    assert_eq!(&rt; all.as_str(), "a a/main a/x b/y z ");
    Ok(())
}

// One page includes a thousand templates of a folder, and each of these the next, as deep as includes may go.
#[test]
fn a_thousand_templates(rt: HostRuntime) -> Result<(), Fail> {
    let alloc = rt.alloc();
    let mut engine = Engine::new(alloc);
    engine.set_max_include_depth(1002);
    let mut store = Store::new(alloc);
    for i in 0..1000_u32 {
        let path = format!(in alloc; "parts/p{i}")?;
        let next = i + 1;
        let source = format!(in alloc; "{{% include \"/parts/p{next}\" %}}.")?;
        let end = ended(
            alloc,
            store.add(&engine, path.as_str(), CowStr::Owned(source)),
        )?;
        assert_eq!(&rt; end.as_str(), "well");
    }
    let end = ended(
        alloc,
        store.add(&engine, "parts/p1000", CowStr::Borrowed("end")),
    )?;
    assert_eq!(&rt; end.as_str(), "well");
    let mut out = Vec::new(alloc);
    let end = ended(
        alloc,
        store.render(&engine, "parts/p0", &Value::None, &mut out),
    )?;
    assert_eq!(&rt; end.as_str(), "well");
    assert_eq!(&rt; out.len(), 1003);
    Ok(())
}
