// Names of `upon::value`, and the root's `to_value` and `value!`.
use serde::Serialize;
use std::alloc::{AllocError, Global};
use std::borrow::CowStr;
use std::collections::{BTreeMap, HashMap};
use std::ops::Deref;
use std::test::Fail;
use upon::value::{Value, ValueCow};
use upon::{Result, to_value, value};

pub fn variants(alloc: Global) -> [Value; 6] {
    [
        Value::None,
        Value::Bool(true),
        Value::Integer(1i64),
        Value::String(String::new(alloc)),
        Value::List(Vec::new(alloc)),
        Value::Map(BTreeMap::new(alloc)),
    ]
}

pub fn kind(value: &Value) -> usize {
    match value {
        Value::None => 0,
        Value::Bool(_truth) => 1,
        Value::Integer(_number) => 2,
        Value::String(text) => text.len(),
        Value::List(items) => items.len(),
        Value::Map(entries) => entries.len(),
    }
}

pub fn human(value: &Value) -> &'static str {
    value.human()
}

// Traits.
fn is_default<T: Default>() -> T {
    T::default()
}

fn is_partial_eq<T: PartialEq>(one: &T, other: &T) -> bool {
    one == other
}

fn is_eq<T: Eq>(_one: &T) {}

fn is_as_ref<T: AsRef<Value>>(one: &T) -> &Value {
    one.as_ref()
}

fn is_serialize<T: Serialize>(_one: &T) {}

fn from<T: Into<Value>>(given: T) -> Value {
    given.into()
}

pub fn traits(one: &Value, other: &Value) -> bool {
    let none: Value = is_default();
    is_eq(one);
    is_serialize(one);
    is_as_ref(one);
    is_partial_eq(one, other) && none == Value::default()
}

pub fn try_clone(one: &Value) -> std::result::Result<Value, AllocError> {
    one.try_clone()
}

// `From`, without memory.
pub fn froms(alloc: Global) {
    drop(from(()));
    drop(from(true));
    drop(from(1u8));
    drop(from(1u16));
    drop(from(1u32));
    drop(from(1i8));
    drop(from(1i16));
    drop(from(1i32));
    drop(from(1i64));
    drop(from(String::new(alloc)));
    let list: Vec<Value> = Vec::new(alloc);
    drop(from(list));
    let map: BTreeMap<String, Value> = BTreeMap::new(alloc);
    drop(from(map));
    drop(from(Some(())));
    drop(from(Some(true)));
    drop(from(Some(1u8)));
    drop(from(Some(1u16)));
    drop(from(Some(1u32)));
    drop(from(Some(1i8)));
    drop(from(Some(1i16)));
    drop(from(Some(1i32)));
    drop(from(Some(1i64)));
    drop(from(Some(String::new(alloc))));
    let list: Vec<Value> = Vec::new(alloc);
    drop(from(Some(list)));
    let map: BTreeMap<String, Value> = BTreeMap::new(alloc);
    drop(from(Some(map)));
}

// Conversions that take memory.
pub fn from_text(alloc: Global, text: &str) -> std::result::Result<Value, AllocError> {
    Value::from_text(alloc, text)
}

pub fn from_cow(alloc: Global, text: CowStr) -> std::result::Result<Value, AllocError> {
    Value::from_cow(alloc, text)
}

pub fn from_list(alloc: Global, items: Vec<i64>) -> std::result::Result<Value, AllocError> {
    Value::from_list(alloc, items)
}

pub fn from_array(alloc: Global, items: [Value; 2]) -> std::result::Result<Value, AllocError> {
    Value::from_array(alloc, items)
}

pub fn from_btree_map(
    alloc: Global,
    map: BTreeMap<String, i64>,
) -> std::result::Result<Value, AllocError> {
    Value::from_btree_map(alloc, map)
}

pub fn from_hash_map(
    alloc: Global,
    map: HashMap<String, i64>,
) -> std::result::Result<Value, AllocError> {
    Value::from_hash_map(alloc, map)
}

pub fn from_pairs(
    alloc: Global,
    pairs: [(String, Value); 1],
) -> std::result::Result<Value, AllocError> {
    Value::from_pairs(alloc, pairs)
}

pub fn from_items(alloc: Global, items: Vec<i64>) -> std::result::Result<Value, AllocError> {
    Value::from_items(alloc, items.into_iter())
}

pub fn from_entries(
    alloc: Global,
    map: BTreeMap<String, i64>,
) -> std::result::Result<Value, AllocError> {
    Value::from_entries(alloc, map.into_iter())
}

// `ValueCow`.
pub fn is_owned(one: ValueCow) -> bool {
    match one {
        ValueCow::Borrowed(_value) => false,
        ValueCow::Owned(_value) => true,
    }
}

pub fn borrowed(one: &Value) -> ValueCow<'_> {
    ValueCow::Borrowed(one)
}

pub fn owned(one: Value) -> ValueCow<'static> {
    ValueCow::Owned(one)
}

pub fn derefs<'a>(one: &'a ValueCow<'_>) -> &'a Value {
    one.deref()
}

pub fn as_bool(one: &ValueCow) -> bool {
    one.as_bool()
}

// `to_value` and `value!`.
pub fn converts<T: Serialize + Drop>(alloc: Global, one: T) -> Result<Value> {
    to_value(alloc, one)
}

pub fn makes(alloc: Global) -> Result<Value> {
    value! { in alloc; none: None, list: [1, {a: 2},], map: {b: true}, text: "x", }
}

pub fn makes_empty(alloc: Global) -> Result<Value> {
    value! { in alloc; }
}

#[test]
fn values(rt: HostRuntime) -> std::result::Result<(), Fail> {
    let alloc = rt.alloc();
    let made = makes(alloc)?;
    assert_eq!(rt; human(&made), "map");
    assert_eq!(rt; kind(&made), 4);
    assert!(rt; traits(&made, &made));
    assert_eq!(rt; kind(&makes_empty(alloc)?), 0);
    assert!(rt; variants(alloc)[0] == Value::None);
    assert!(rt; try_clone(&made)? == made);
    assert!(rt; from_text(alloc, "a")? == from_cow(alloc, CowStr::Borrowed("a"))?);
    assert!(rt; converts(alloc, 1i64)? == Value::Integer(1));
    froms(alloc);
    assert!(rt; as_bool(&borrowed(&made)));
    assert_eq!(rt; kind(derefs(&borrowed(&made))), 4);
    assert!(rt; is_owned(owned(made)));
    Ok(())
}
