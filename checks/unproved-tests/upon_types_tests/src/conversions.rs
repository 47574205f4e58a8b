// Every conversion of values, with its value.
use std::alloc::{AllocError, Global};
use std::borrow::CowStr;
use std::collections::{BTreeMap, HashMap};
use std::test::Fail;
use upon_types::value::Value;

fn text(alloc: Global, text: &str) -> Result<String, AllocError> {
    String::from_str(alloc, text)
}

#[test]
fn scalars(rt: HostRuntime) {
    assert!(rt; Value::from(()) == Value::None);
    assert!(rt; Value::from(true) == Value::Bool(true));
    assert!(rt; Value::from(255u8) == Value::Integer(255));
    assert!(rt; Value::from(65535u16) == Value::Integer(65535));
    assert!(rt; Value::from(4294967295u32) == Value::Integer(4294967295));
    assert!(rt; Value::from(-128i8) == Value::Integer(-128));
    assert!(rt; Value::from(-32768i16) == Value::Integer(-32768));
    assert!(rt; Value::from(-2147483648i32) == Value::Integer(-2147483648));
}

#[test]
fn options(rt: HostRuntime) -> Result<(), Fail> {
    let alloc = rt.alloc();
    assert!(rt; Value::from(Some(1u8)) == Value::Integer(1));
    assert!(rt; Value::from(None::<u8>) == Value::None);
    assert!(rt; Value::from(Some(text(alloc, "t")?)) == Value::from_text(alloc, "t")?);
    Ok(())
}

#[test]
fn texts(rt: HostRuntime) -> Result<(), Fail> {
    let alloc = rt.alloc();
    let wanted = Value::String(text(alloc, "t")?);
    assert!(rt; Value::from_cow(alloc, CowStr::Borrowed("t"))? == wanted);
    assert!(rt; Value::from_cow(alloc, CowStr::Owned(text(alloc, "t")?))? == wanted);
    Ok(())
}

#[test]
fn lists(rt: HostRuntime) -> Result<(), Fail> {
    let alloc = rt.alloc();
    let wanted = Value::from_array(alloc, [Value::Integer(1), Value::Integer(2)])?;
    let numbers = Vec::from_array(alloc, [1u8, 2u8])?;
    assert!(rt; Value::from_items(alloc, numbers.as_slice().iter().copied())? == wanted);
    assert!(rt; Value::from_list(alloc, numbers)? == wanted);
    Ok(())
}

// The map of `a` and `b`, with 1 and 2.
fn map(alloc: Global) -> Result<Value, AllocError> {
    Value::from_pairs(
        alloc,
        [
            (text(alloc, "a")?, Value::Integer(1)),
            (text(alloc, "b")?, Value::Integer(2)),
        ],
    )
}

#[test]
fn maps(rt: HostRuntime) -> Result<(), Fail> {
    let alloc = rt.alloc();
    let mut tree = BTreeMap::new(alloc);
    tree.insert(text(alloc, "b")?, 2u8)?;
    tree.insert(text(alloc, "a")?, 1u8)?;
    assert!(rt; Value::from_btree_map(alloc, tree)? == map(alloc)?);
    let mut table = HashMap::new(alloc);
    table.insert(text(alloc, "b")?, 2u8)?;
    table.insert(text(alloc, "a")?, 1u8)?;
    assert!(rt; Value::from_hash_map(alloc, table)? == map(alloc)?);
    Ok(())
}

#[test]
fn of_equal_keys_the_last(rt: HostRuntime) -> Result<(), Fail> {
    let alloc = rt.alloc();
    let entries = Vec::from_array(
        alloc,
        [
            (text(alloc, "a")?, 3u8),
            (text(alloc, "b")?, 2u8),
            (text(alloc, "a")?, 1u8),
        ],
    )?;
    assert!(rt; Value::from_entries(alloc, entries.into_iter())? == map(alloc)?);
    let pairs = [
        (text(alloc, "a")?, Value::None),
        (text(alloc, "a")?, Value::Integer(1)),
    ];
    let wanted = Value::from_pairs(alloc, [(text(alloc, "a")?, Value::Integer(1))])?;
    assert!(rt; Value::from_pairs(alloc, pairs)? == wanted);
    Ok(())
}
