// Maps that are written out with `value!`.
use crate::data::rows_say::two;
use crate::data::wanted::{integers, one, text, with};
use std::alloc::{AllocError, Global};
use std::collections::BTreeMap;
use std::test::Fail;
use upon_serde::value;
use upon_types::error::{ErrorKind, Result};
use upon_types::value::Value;

#[test]
fn empty(rt: HostRuntime) -> Result<()> {
    let alloc = rt.alloc();
    let made = value! { in alloc; }?;
    assert!(rt; made == Value::Map(BTreeMap::new(alloc)), "{made:?}");
    Ok(())
}

fn shaped(alloc: Global) -> Result<Value> {
    value! { in alloc; a: [1, {b: true}], c: None }
}

fn wanted_shape(alloc: Global) -> std::result::Result<Value, AllocError> {
    let inner = one(alloc, "b", Value::Bool(true))?;
    let list = two(alloc, Value::Integer(1), inner)?;
    let map = one(alloc, "a", list)?;
    with(alloc, map, "c", Value::None)
}

#[test]
fn lists_and_maps_inside(rt: HostRuntime) -> Result<()> {
    let made = shaped(rt.alloc())?;
    let wanted = wanted_shape(rt.alloc())?;
    assert!(rt; made == wanted, "{made:?}");
    Ok(())
}

#[test]
fn commas_at_the_end(rt: HostRuntime) -> Result<()> {
    let alloc = rt.alloc();
    let made = value! { in alloc; a: [1, {b: true,},], c: None, }?;
    assert!(rt; made == wanted_shape(alloc)?, "{made:?}");
    Ok(())
}

#[test]
fn empty_inside(rt: HostRuntime) -> Result<()> {
    let alloc = rt.alloc();
    let made = value! { in alloc; a: [], b: {}, c: [[], {}, None] }?;
    let map = one(alloc, "a", Value::List(Vec::new(alloc)))?;
    let map = with(alloc, map, "b", Value::Map(BTreeMap::new(alloc)))?;
    let list = Value::List(vec![in alloc;
        Value::List(Vec::new(alloc)),
        Value::Map(BTreeMap::new(alloc)),
        Value::None,
    ]?);
    let wanted = with(alloc, map, "c", list)?;
    assert!(rt; made == wanted, "{made:?}");
    Ok(())
}

#[test]
fn expressions(rt: HostRuntime) -> Result<()> {
    let alloc = rt.alloc();
    let name = String::from_str(alloc, "John")?;
    let numbers = [1u8, 2];
    let made =
        value! { in alloc; name: name.as_str(), sum: 1 + 2, numbers: numbers, last: [numbers[1], -1] }?;
    let map = one(alloc, "name", text(alloc, "John")?)?;
    let map = with(alloc, map, "sum", Value::Integer(3))?;
    let map = with(alloc, map, "numbers", integers(alloc, &[1, 2])?)?;
    let wanted = with(alloc, map, "last", integers(alloc, &[2, -1])?)?;
    assert!(rt; made == wanted, "{made:?}");
    Ok(())
}

#[test]
fn the_last_of_equal_keys_counts(rt: HostRuntime) -> Result<()> {
    let alloc = rt.alloc();
    let made = value! { in alloc; a: 1, a: 2 }?;
    assert!(rt; made == one(alloc, "a", Value::Integer(2))?, "{made:?}");
    Ok(())
}

fn with_a_float(alloc: Global) -> Result<Value> {
    value! { in alloc; a: [1, {b: 1.5f64}], c: u64::MAX }
}

#[test]
fn the_first_refusal(rt: HostRuntime) -> std::result::Result<(), Fail> {
    match with_a_float(rt.alloc()) {
        Ok(value) => panic!(rt; "{value:?}"),
        Err(error) => {
            assert!(rt; matches!(error.kind(), ErrorKind::Serialize));
            assert_eq!(rt;
                error.reason(),
                Some("floating point numbers are not supported")
            );
        }
    }
    Ok(())
}

// It leaves the macro alone, not the function in which the macro is.
fn or_none(alloc: Global) -> Value {
    let made = value! { in alloc; a: 1.5f32 };
    match made {
        Ok(value) => value,
        Err(_) => Value::None,
    }
}

#[test]
fn a_refusal_stays_in_the_macro(rt: HostRuntime) -> std::result::Result<(), Fail> {
    assert!(rt; or_none(rt.alloc()) == Value::None);
    Ok(())
}
