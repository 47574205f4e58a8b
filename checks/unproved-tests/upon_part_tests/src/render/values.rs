// What paths lead to from a value, and which values are the same.
use crate::render::stack::{DOT, MAYBE, Part, path};
use std::alloc::{AllocError, Global};
use std::collections::BTreeMap;
use std::test::Fail;
use upon_lookup::value::{lookup_path, lookup_path_maybe};
use upon_types::value::same::{is_same, is_same_map};
use upon_types::value::{Value, ValueCow};

const SOURCE: &str = "user.name";

// A map with one entry.
fn one(alloc: Global, key: &str, value: Value) -> Result<BTreeMap<String, Value>, AllocError> {
    let mut entries = BTreeMap::new(alloc);
    entries.insert(String::from_str(alloc, key)?, value)?;
    Ok(entries)
}

// {user: {name: "Ann"}}
fn context(alloc: Global) -> Result<Value, AllocError> {
    let user = one(alloc, "name", Value::from_text(alloc, "Ann")?)?;
    Ok(Value::from(one(alloc, "user", Value::from(user))?))
}

#[test]
fn paths_from_a_context(rt: HostRuntime) -> Result<(), Fail> {
    let alloc = rt.alloc();
    let context = context(alloc)?;
    let here = ValueCow::Borrowed(&context);
    let rows: [(&[Part], Option<Value>); 4] = [
        (&[(DOT, "user"), (DOT, "name")], Some(Value::from_text(alloc, "Ann")?)),
        (&[(DOT, "nobody"), (DOT, "name")], None),
        (&[(MAYBE, "nobody")], Some(Value::None)),
        (&[(DOT, "user"), (MAYBE, "age")], Some(Value::None)),
    ];
    for (parts, wanted) in rows {
        let path = path(alloc, 0, parts)?;
        let found = lookup_path_maybe(alloc, SOURCE, &here, path.as_slice())?;
        assert_eq!(rt; found.as_deref(), wanted.as_ref());
    }
    Ok(())
}

#[test]
fn no_members_lead_to_the_value(rt: HostRuntime) -> Result<(), Fail> {
    let alloc = rt.alloc();
    let context = context(alloc)?;
    let found = lookup_path(alloc, SOURCE, &ValueCow::Borrowed(&context), &[])?;
    assert!(rt; is_same(&found, &context));
    Ok(())
}

#[test]
fn maps_are_the_same_by_key(rt: HostRuntime) -> Result<(), Fail> {
    let alloc = rt.alloc();
    let map = one(alloc, "a", Value::from(1))?;
    assert!(rt; is_same_map(&map, &one(alloc, "a", Value::from(1))?));
    for (key, value) in [("a", Value::from(2)), ("b", Value::from(1)), ("a", Value::None)] {
        assert!(rt; !is_same_map(&map, &one(alloc, key, value)?));
    }
    assert!(rt; !is_same_map(&map, &BTreeMap::new(alloc)));
    Ok(())
}
