// Values: conversions, equality and copies.
use std::alloc::{AllocError, Global};
use std::collections::BTreeMap;
use std::test::Fail;
use upon_types::value::Value;

// A map that holds a list and a text.
fn nested(alloc: Global) -> Result<Value, AllocError> {
    let mut items = Vec::new(alloc);
    items.push(Value::from(1))?;
    items.push(Value::Bool(true))?;
    let mut entries = BTreeMap::new(alloc);
    entries.insert(String::from_str(alloc, "items")?, Value::from(items))?;
    entries.insert(
        String::from_str(alloc, "text")?,
        Value::from(String::from_str(alloc, "t")?),
    )?;
    Ok(Value::from(entries))
}

#[test]
fn copies_are_equal(rt: HostRuntime) -> Result<(), Fail> {
    let value = nested(rt.alloc())?;
    let copy = value.try_clone()?;
    assert!(rt; copy == value);
    assert!(rt; copy != Value::None);
    assert!(rt; copy.as_ref() == &value);
    Ok(())
}

#[test]
fn conversions(rt: HostRuntime) -> Result<(), Fail> {
    let alloc = rt.alloc();
    assert!(rt; Value::from_text(alloc, "t")? == Value::from(String::from_str(alloc, "t")?));
    assert!(rt; Value::from(-3) == Value::Integer(-3));
    assert!(rt; Value::default() == Value::None);
    Ok(())
}

#[test]
fn words_of_kinds(rt: HostRuntime) -> Result<(), Fail> {
    let alloc = rt.alloc();
    assert_eq!(rt; nested(alloc)?.human(), "map");
    assert_eq!(rt; Value::from(Vec::new(alloc)).human(), "list");
    assert_eq!(rt; Value::from_text(alloc, "")?.human(), "string");
    for (value, word) in [
        (Value::None, "none"),
        (Value::Bool(true), "bool"),
        (Value::from(0), "integer"),
    ] {
        assert_eq!(rt; value.human(), word);
    }
    Ok(())
}
