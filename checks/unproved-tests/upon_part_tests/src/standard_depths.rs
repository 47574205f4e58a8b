// Functions on values of any depth: lists and maps in each other, in turn.
use crate::functions::reports::{CallReport, report};
use std::alloc::{AllocError, Global};
use std::collections::BTreeMap;
use std::process::Abort;
use std::test::Fail;
use upon_functions::function::Function;
use upon_std::table::ALL;
use upon_types::value::{Value, ValueCow};

// So many lists, each in a map, in each other.
const PAIRS: usize = 1_000; // ./test: 100

// So many lists, each in a map, in each other, with a number in the innermost.
fn nested(alloc: Global, innermost: i64) -> Result<Value, AllocError> {
    let mut value = Value::Integer(innermost);
    for _ in 0..PAIRS {
        let list = Value::List(vec![in alloc; value]?);
        let mut entries = BTreeMap::new(alloc);
        drop(entries.insert(String::from_str(alloc, "k")?, list)?);
        value = Value::Map(entries);
    }
    Ok(value)
}

// What the function with this name answers.
fn answer(alloc: Global, name: &str, args: &[ValueCow]) -> Option<CallReport> {
    for function in ALL {
        if function.name() == name {
            return Some(report(function.call(alloc, args)));
        }
    }
    None
}

fn truth(truth: bool) -> Option<CallReport> {
    Some(CallReport::Value(Value::Bool(truth)))
}

#[test]
fn compared(rt: HostRuntime) -> Result<(), Fail> {
    let alloc = rt.alloc();
    let one = nested(alloc, 1)?;
    let same = nested(alloc, 1)?;
    let other = nested(alloc, 2)?;
    let equals = [ValueCow::Borrowed(&one), ValueCow::Borrowed(&same)];
    let differing = [ValueCow::Borrowed(&one), ValueCow::Borrowed(&other)];
    assert!(rt; answer(alloc, "eq", &equals) == truth(true));
    assert!(rt; answer(alloc, "ne", &equals) == truth(false));
    assert!(rt; answer(alloc, "eq", &differing) == truth(false));
    assert!(rt; answer(alloc, "ne", &differing) == truth(true));
    Ok(())
}

#[test]
fn taken_once(rt: HostRuntime) -> Result<(), Fail> {
    let alloc = rt.alloc();
    let mut items = vec![in alloc; nested(alloc, 1)?]?;
    items.push(nested(alloc, 2)?)?;
    let kept = Value::List(items);
    let mut items = vec![in alloc; nested(alloc, 1)?]?;
    items.push(nested(alloc, 2)?)?;
    items.push(nested(alloc, 1)?)?;
    let args = [ValueCow::Owned(Value::List(items))];
    assert!(rt; answer(alloc, "unique", &args) == Some(CallReport::Value(kept)));
    Ok(())
}

// Of items with a value at a key, those that have a deep one.
#[test]
fn looked_for(rt: HostRuntime) -> Result<(), Fail> {
    let alloc = rt.alloc();
    let mut items = Vec::new(alloc);
    for innermost in [2, 1, 3] {
        let item = Value::from_pairs(
            alloc,
            [(String::from_str(alloc, "k")?, nested(alloc, innermost)?)],
        )?;
        items.push(item)?;
    }
    let wanted = nested(alloc, 1)?;
    let key = Value::from_text(alloc, "k")?;
    let kept = Value::from_pairs(
        alloc,
        [(String::from_str(alloc, "k")?, nested(alloc, 1)?)],
    )?;
    let args = [
        ValueCow::Owned(Value::List(items)),
        ValueCow::Owned(key),
        ValueCow::Owned(wanted),
    ];
    let wanted = Value::List(vec![in alloc; kept]?);
    assert!(rt; answer(alloc, "where", &args) == Some(CallReport::Value(wanted)));
    Ok(())
}

#[test]
fn as_json(rt: HostRuntime) -> Result<(), Fail> {
    let alloc = rt.alloc();
    let mut wanted = String::new(alloc);
    for _ in 0..PAIRS {
        wanted.push_str("{\"k\":[")?;
    }
    wanted.push_str("7")?;
    for _ in 0..PAIRS {
        wanted.push_str("]}")?;
    }
    let args = [ValueCow::Owned(nested(alloc, 7)?)];
    let answered = answer(alloc, "json", &args);
    assert!(rt; answered == Some(CallReport::Value(Value::String(wanted))));
    Ok(())
}
