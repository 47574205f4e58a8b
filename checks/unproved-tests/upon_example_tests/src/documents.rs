// Tests of the examples of docs/STORE.md.
use std::test::Fail;
use upon::{Engine, Value};
use upon_examples::documents::{add_file, page};
use upon_store::store::Store;

#[test]
fn a_page(rt: HostRuntime) -> Result<(), Fail> {
    let mut out = Vec::new(rt.alloc());
    assert!(&rt; page(rt.alloc(), &mut out).is_ok());
    assert!(&rt; out.as_slice() == b"<h1>Home</h1>Hello!".as_slice());
    Ok(())
}

#[test]
fn files(rt: HostRuntime) -> Result<(), Fail> {
    let alloc = rt.alloc();
    let engine = Engine::new(alloc);
    let mut store = Store::new(alloc);
    let home = b"{% include \"note\" %}".as_slice();
    assert!(&rt; matches!(add_file(alloc, &engine, &mut store, "home", home), Ok(true)));
    assert!(&rt;
        matches!(
            add_file(alloc, &engine, &mut store, "note", b"Hello!".as_slice()),
            Ok(true)
        )
    );
    assert!(&rt;
        matches!(
            add_file(alloc, &engine, &mut store, "none", b"\xff".as_slice()),
            Ok(false)
        )
    );
    let mut out = Vec::new(alloc);
    assert!(&rt;
        store
            .render(&engine, "home", &Value::None, &mut out)
            .is_ok()
    );
    assert!(&rt; out.as_slice() == b"Hello!".as_slice());
    Ok(())
}
