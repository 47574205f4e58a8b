// What the tests compare with: values that are built by hand, without serde.
use std::alloc::{AllocError, Global};
use std::collections::BTreeMap;
use std::process::Abort;
use upon_types::value::Value;

/// Checks that the value is this one.
pub fn is_value(rt: &impl Abort, made: Value, wanted: Value) {
    assert!(rt; made == wanted, "{made:?} where {wanted:?} is wanted");
}

/// Returns a text.
pub fn text(alloc: Global, text: &str) -> std::result::Result<Value, AllocError> {
    Ok(Value::String(String::from_str(alloc, text)?))
}

/// Returns a list of integers.
pub fn integers(alloc: Global, numbers: &[i64]) -> std::result::Result<Value, AllocError> {
    let mut items = Vec::new(alloc);
    for number in numbers {
        items.push(Value::Integer(*number))?;
    }
    Ok(Value::List(items))
}

/// Returns a map of one entry.
pub fn one(alloc: Global, key: &str, value: Value) -> std::result::Result<Value, AllocError> {
    let mut entries = BTreeMap::new(alloc);
    drop(entries.insert(String::from_str(alloc, key)?, value)?);
    Ok(Value::Map(entries))
}

/// Returns the same map with one more entry. Another value than a map stays.
pub fn with(
    alloc: Global,
    map: Value,
    key: &str,
    value: Value,
) -> std::result::Result<Value, AllocError> {
    match map.into_entries() {
        Ok(mut entries) => {
            drop(entries.insert(String::from_str(alloc, key)?, value)?);
            Ok(Value::Map(entries))
        }
        Err(other) => Ok(other),
    }
}
