// What a store does where a growth of memory may be refused: the same as ever, or it says that memory is out, and a
// refused addition leaves it as it was. `checks/growths` refuses each in turn.
use std::alloc::Global;
use std::borrow::CowStr;
use std::process::Abort;
use std::test::Fail;
use upon::error::ErrorKind;
use upon::{Engine, Value};
use upon_store::store::{Store, StoreError};

// Whether a call says that memory is out: the store's own, or the engine's.
fn is_out(error: &StoreError) -> bool {
    match error {
        StoreError::OutOfMemory => true,
        StoreError::Engine(error) => matches!(error.kind(), ErrorKind::OutOfMemory),
        StoreError::BadPath => false,
        StoreError::NotFound => false,
    }
}

// Adds a template, or else finds the store without it.
fn add(
    rt: &impl Abort,
    store: &mut Store<'static>,
    engine: &Engine<'_>,
    path: &str,
    source: &'static str,
) {
    match store.add(engine, path, CowStr::Borrowed(source)) {
        Ok(()) => assert!(rt; store.get(path).is_some(), "{path}"),
        Err(error) => {
            assert!(rt; is_out(&error), "{path}");
            assert!(rt; store.get(path).is_none(), "{path}");
        }
    }
}

fn store_of(rt: &impl Abort, alloc: Global, engine: &Engine<'_>) -> Store<'static> {
    let mut store = Store::new(alloc);
    add(
        rt,
        &mut store,
        engine,
        "a/main",
        "{% include \"../b/y\" %}!",
    );
    add(rt, &mut store, engine, "b/y", "2");
    store
}

#[test]
fn additions_and_renderings(rt: HostRuntime) -> Result<(), Fail> {
    let alloc = rt.alloc();
    let engine = Engine::new(alloc);
    let store = store_of(&rt, alloc, &engine);
    // The writer takes its memory before: if it had none later, that would be an io error.
    let Ok(mut out) = Vec::with_capacity(alloc, 8) else {
        return Ok(());
    };
    match store.render(&engine, "a/main", &Value::None, &mut out) {
        Ok(()) => assert!(&rt; out.as_slice() == b"2!".as_slice()),
        Err(StoreError::NotFound) => assert!(&rt; store.get("a/main").is_none()),
        Err(error) => assert!(&rt; is_out(&error) || store.get("b/y").is_none()),
    }
    Ok(())
}
