// Names of `upon_store`.
use std::alloc::Global;
use std::borrow::CowStr;
use std::io;
use std::test::Fail;
use upon::{Engine, Error, Template, Value};
use upon_store::store::{Store, StoreError};

pub fn store<'s>(alloc: Global) -> Store<'s> {
    Store::new(alloc)
}

pub fn add<'s>(
    store: &mut Store<'s>,
    engine: &Engine,
    path: &str,
    source: CowStr<'s>,
) -> Result<(), StoreError> {
    store.add(engine, path, source)
}

pub fn get<'t, 's>(store: &'t Store<'s>, path: &str) -> Option<&'t Template<'s>> {
    store.get(path)
}

pub fn remove(store: &mut Store, path: &str) -> bool {
    store.remove(path)
}

pub fn render<W: io::Write>(
    store: &Store,
    engine: &Engine,
    path: &str,
    value: &Value,
    writer: &mut W,
) -> Result<(), StoreError> {
    store.render(engine, path, value, writer)
}

pub fn store_error(error: StoreError) -> Option<Error> {
    match error {
        StoreError::BadPath => None,
        StoreError::NotFound => None,
        StoreError::Engine(error) => Some(error),
        StoreError::OutOfMemory => None,
    }
}

#[test]
fn stored(rt: HostRuntime) -> std::result::Result<(), Fail> {
    let alloc = rt.alloc();
    let engine = Engine::new(alloc);
    let mut pages = store(alloc);
    assert!(rt; add(&mut pages, &engine, "a/b", CowStr::Borrowed("text")).is_ok());
    assert!(rt; get(&pages, "a/b").is_some_and(|page| page.source() == "text"));
    let mut out = Vec::new(alloc);
    assert!(rt; render(&pages, &engine, "a/b", &Value::None, &mut out).is_ok());
    assert_eq!(rt; out.as_slice(), b"text".as_slice());
    let Err(error) = render(&pages, &engine, "a/c", &Value::None, &mut out) else {
        return Ok(());
    };
    assert!(rt; store_error(error).is_none());
    assert!(rt; remove(&mut pages, "a/b"));
    Ok(())
}
