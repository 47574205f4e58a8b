// Operands: what is on top, and lists and maps that are made on them, and how deep these may be.
use crate::vm_calls::fixed::nested;
use std::alloc::AllocError;
use std::test::Fail;
use upon_types::types::Span;
use upon_types::types::ast::String as Quoted;
use upon_types::value::{Value, ValueCow};
use upon_vm_steps::items::{insert_entry, push_item};
use upon_vm_steps::operands::Operands;

fn at(m: usize) -> Span {
    Span {
        m,
        n: m.saturating_add(1),
    }
}

#[test]
fn the_last_is_on_top(rt: HostRuntime) -> Result<(), Fail> {
    let mut operands = Operands::new(rt.alloc());
    assert!(rt; operands.is_empty());
    operands.push(ValueCow::Owned(Value::Integer(1)), at(1))?;
    operands.push(ValueCow::Owned(Value::Integer(2)), at(2))?;
    assert!(rt; !operands.is_empty());
    let (value, span) = operands.pop().ok_or("none")?;
    assert!(rt; *value == Value::Integer(2));
    assert_eq!(rt; span, at(2));
    Ok(())
}

#[test]
fn the_value_on_top(rt: HostRuntime) -> Result<(), Fail> {
    let lent = Value::Integer(3);
    let mut operands = Operands::new(rt.alloc());
    assert!(rt; operands.on_top().is_none());
    operands.push(ValueCow::Owned(Value::Integer(1)), at(1))?;
    operands.push(ValueCow::Owned(Value::Integer(2)), at(2))?;
    operands.push(ValueCow::Borrowed(&lent), at(3))?;
    assert!(rt; matches!(operands.on_top(), Some(ValueCow::Borrowed(Value::Integer(3)))));
    operands.drop_top(2);
    assert!(rt; matches!(operands.on_top(), Some(ValueCow::Owned(Value::Integer(1)))));
    let (value, span) = operands.pop().ok_or("none")?;
    assert!(rt; *value == Value::Integer(1));
    assert_eq!(rt; span, at(1));
    Ok(())
}

#[test]
fn a_list_grows(rt: HostRuntime) -> Result<(), Fail> {
    let alloc = rt.alloc();
    let lent = Value::from_text(alloc, "b")?;
    let mut operands = Operands::new(alloc);
    operands.push(ValueCow::Owned(Value::List(Vec::new(alloc))), at(0))?;
    operands.push(ValueCow::Owned(Value::Integer(1)), at(1))?;
    assert_eq!(rt; push_item(&mut operands)?, Some(()));
    operands.push(ValueCow::Borrowed(&lent), at(2))?;
    assert_eq!(rt; push_item(&mut operands)?, Some(()));
    let (value, span) = operands.pop().ok_or("none")?;
    let wanted = Value::List(vec![in alloc; Value::Integer(1), Value::from_text(alloc, "b")?]?);
    assert!(rt; *value == wanted);
    assert_eq!(rt; span, at(0));
    Ok(())
}

fn key(alloc: std::alloc::Global, text: &str) -> Result<Quoted, std::alloc::AllocError> {
    Ok(Quoted {
        value: String::from_str(alloc, text)?,
        span: at(9),
    })
}

#[test]
fn the_last_of_equal_keys_counts(rt: HostRuntime) -> Result<(), Fail> {
    let alloc = rt.alloc();
    let map = Value::from_entries(alloc, Vec::<(String, Value)>::new(alloc).into_iter())?;
    let mut operands = Operands::new(alloc);
    operands.push(ValueCow::Owned(map), at(0))?;
    operands.push(ValueCow::Owned(Value::Integer(1)), at(1))?;
    assert_eq!(rt; insert_entry(&mut operands, &key(alloc, "k")?)?, Some(()));
    operands.push(ValueCow::Owned(Value::Integer(2)), at(2))?;
    assert_eq!(rt; insert_entry(&mut operands, &key(alloc, "k")?)?, Some(()));
    let (value, _) = operands.pop().ok_or("none")?;
    let wanted = Value::from_pairs(alloc, [(String::from_str(alloc, "k")?, Value::Integer(2))])?;
    assert!(rt; *value == wanted);
    Ok(())
}

// Whether a list that is so deep may be put into a list.
fn goes_into_a_list(alloc: std::alloc::Global, depth: usize) -> Result<bool, AllocError> {
    let mut operands = Operands::new(alloc);
    operands.push(ValueCow::Owned(Value::List(Vec::new(alloc))), at(0))?;
    operands.push(ValueCow::Owned(nested(alloc, depth)?), at(1))?;
    Ok(push_item(&mut operands).is_ok())
}

// Whether it may be put into a map.
fn goes_into_a_map(alloc: std::alloc::Global, depth: usize) -> Result<bool, AllocError> {
    let map = Value::from_entries(alloc, Vec::<(String, Value)>::new(alloc).into_iter())?;
    let mut operands = Operands::new(alloc);
    operands.push(ValueCow::Owned(map), at(0))?;
    operands.push(ValueCow::Owned(nested(alloc, depth)?), at(1))?;
    Ok(insert_entry(&mut operands, &key(alloc, "k")?).is_ok())
}

#[test]
fn values_of_any_depth_go_in(rt: HostRuntime) -> Result<(), Fail> {
    let alloc = rt.alloc();
    for depth in [1, 255, 256, 257, 1_000] {
        assert!(rt; goes_into_a_list(alloc, depth)?);
        assert!(rt; goes_into_a_map(alloc, depth)?);
    }
    Ok(())
}
