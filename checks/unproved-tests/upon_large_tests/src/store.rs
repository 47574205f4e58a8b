// Stores with many templates, and with long or deep paths.
use std::alloc::{AllocError, Global};
use std::borrow::CowStr;
use std::process::Abort;
use std::test::Fail;
use upon::{Engine, Value};
use upon_store::path::resolve;
use upon_store::store::Store;

// A text many times over.
fn many(alloc: Global, part: &str, times: usize) -> Result<String, AllocError> {
    let mut text = String::new(alloc);
    for _ in 0..times {
        text.push_str(part)?;
    }
    Ok(text)
}

// Adds a template that is no reason to refuse.
fn add(
    store: &mut Store<'static>,
    engine: &Engine<'_>,
    path: &str,
    source: &'static str,
) -> Result<(), Fail> {
    match store.add(engine, path, CowStr::Borrowed(source)) {
        Ok(()) => Ok(()),
        Err(_) => Err(Fail::new(format_args!("{path} is refused"))),
    }
}

#[test]
fn many_paths(rt: HostRuntime) -> Result<(), Fail> {
    let alloc = rt.alloc();
    let engine = Engine::new(alloc);
    let mut store = Store::new(alloc);
    for i in 0..500u32 {
        let path = format!(in alloc; "a/{i}")?;
        add(&mut store, &engine, path.as_str(), "x")?;
    }
    let paths = store.paths()?;
    assert_eq!(&rt; paths.len(), 500);
    assert!(&rt; paths.get(499) == Some(&"a/99"));
    Ok(())
}

// A name denotes this path in the top.
fn denotes(rt: &impl Abort, alloc: Global, name: &str, wanted: &str) -> Result<(), Fail> {
    match resolve(alloc, "z", name)? {
        Some(path) => assert!(rt; path.as_str() == wanted, "{path}"),
        None => return Err(Fail::new(format_args!("{name} denotes no path"))),
    }
    Ok(())
}

#[test]
fn long_names(rt: HostRuntime) -> Result<(), Fail> {
    let alloc = rt.alloc();
    let mut times = 1usize;
    for _ in 0..12 {
        times = times.wrapping_mul(2);
        let name = many(alloc, "n", times)?;
        denotes(&rt, alloc, name.as_str(), name.as_str())?;
    }
    Ok(())
}

#[test]
fn deep_names(rt: HostRuntime) -> Result<(), Fail> {
    let alloc = rt.alloc();
    let mut times = 1usize;
    for _ in 0..5 {
        times = times.wrapping_mul(2);
        let mut name = many(alloc, "a/", times)?;
        name.push_str("b")?;
        denotes(&rt, alloc, name.as_str(), name.as_str())?;
    }
    Ok(())
}

#[test]
fn long_folders(rt: HostRuntime) -> Result<(), Fail> {
    let alloc = rt.alloc();
    let engine = Engine::new(alloc);
    let mut times = 1usize;
    for _ in 0..7 {
        times = times.wrapping_mul(2);
        let folder = many(alloc, "f", times)?;
        let mut store = Store::new(alloc);
        let main = format!(in alloc; "{folder}/main")?;
        let part = format!(in alloc; "{folder}/x")?;
        add(&mut store, &engine, main.as_str(), "1{% include \"x\" %}")?;
        add(&mut store, &engine, part.as_str(), "2")?;
        let mut received = Vec::new(alloc);
        let ended = store.render(&engine, main.as_str(), &Value::None, &mut received);
        assert!(&rt; ended.is_ok() && received.as_slice() == b"12".as_slice(), "{folder}");
    }
    Ok(())
}
