// Values that are set at paths of many keys: a path has as many keys as memory goes.
use std::alloc::{AllocError, Global};
use std::test::Fail;
use upon_data::parts::{Data, PartFault};
use upon_types::value::Value;

// How many keys the path has.
const KEYS: usize = 100_000;

// A path of so many keys `a`.
fn path(alloc: Global, keys: usize) -> Result<String, AllocError> {
    let mut path = String::from_str(alloc, "a")?;
    for _ in 1..keys {
        path.push_str(".a")?;
    }
    Ok(path)
}

// How many maps are around the value at the keys `a`, and the integer there, if it is one.
fn depth(whole: &Value) -> (usize, Option<i64>) {
    let mut value = whole;
    let mut depth = 0;
    for _ in 0..=KEYS {
        match value {
            Value::Map(entries) => match entries.get("a") {
                Some(inner) => value = inner,
                None => return (depth, None),
            },
            Value::Integer(integer) => return (depth, Some(*integer)),
            _ => return (depth, None),
        }
        depth += 1;
    }
    (depth, None)
}

#[test]
fn many_keys(rt: HostRuntime) -> Result<(), Fail> {
    let alloc = rt.alloc();
    let path = path(alloc, KEYS)?;
    let mut data = Data::new(alloc);
    let set = data.set(alloc, path.as_str(), Value::Integer(1));
    let set_again = data.set(alloc, path.as_str(), Value::Integer(2));
    let through = format!(in alloc; "{path}.a")?;
    let set_through = data.set(alloc, through.as_str(), Value::Integer(3));
    let whole = data.into_value();
    assert_eq!(rt; set, Ok(()));
    assert_eq!(rt; set_again, Ok(()));
    assert_eq!(rt; set_through, Err(PartFault::NotMap));
    assert_eq!(rt; depth(&whole), (KEYS, Some(2)));
    Ok(())
}

#[test]
fn keys_that_are_there(rt: HostRuntime) -> Result<(), Fail> {
    let alloc = rt.alloc();
    let mut data = Data::new(alloc);
    for (path, number, wanted) in [
        ("a.b.c", 1, Ok(())),
        ("a.b.d", 2, Ok(())),
        ("a.b.d.e", 3, Err(PartFault::NotMap)),
        ("a.b.d.e.f", 3, Err(PartFault::NotMap)),
        ("a.c", 4, Ok(())),
        ("a.b.c", 5, Ok(())),
        ("", 6, Ok(())),
        ("b..", 7, Ok(())),
    ] {
        assert_eq!(rt; data.set(alloc, path, Value::Integer(number)), wanted);
    }
    let whole = data.into_value();
    let text = format!(in alloc; "{whole:?}")?;
    let a = r#""a": Map({"b": Map({"c": Integer(5), "d": Integer(2)}), "c": Integer(4)})"#;
    let b = r#""b": Map({"": Map({"": Integer(7)})})"#;
    let wanted = format!(in alloc; "Map({{\"\": Integer(6), {a}, {b}}})")?;
    assert_eq!(rt; text, wanted);
    Ok(())
}
