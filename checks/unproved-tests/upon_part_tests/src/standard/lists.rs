// Functions of lists and maps, at empty ones, at one item and at more.
use super::{answer, fault, integer, list, text};
use crate::functions::reports::CallReport;
use std::alloc::{AllocError, Global};
use std::process::Abort;
use std::test::Fail;
use upon_types::value::{Value, ValueCow};

#[test]
fn lengths(rt: HostRuntime) -> Result<(), Fail> {
    let alloc = rt.alloc();
    for (given, wanted) in [("", 0), ("abc", 3), ("\u{1f600}\u{e4}", 2)] {
        let answered = answer(alloc, "length", &[text(alloc, given)?]);
        assert!(rt; answered == Some(CallReport::Value(Value::Integer(wanted))));
    }
    let answered = answer(alloc, "length", &[ValueCow::Owned(list(alloc, &[4, 5])?)]);
    assert!(rt; answered == Some(CallReport::Value(Value::Integer(2))));
    let answered = answer(alloc, "length", &[ValueCow::Owned(map(alloc)?)]);
    assert!(rt; answered == Some(CallReport::Value(Value::Integer(2))));
    let answered = answer(alloc, "length", &[integer(4)]);
    assert!(rt; answered == fault(alloc, "integer has no length")?);
    Ok(())
}

#[test]
fn ends(rt: HostRuntime) -> Result<(), Fail> {
    let alloc = rt.alloc();
    let given: [&[i64]; 2] = [&[4], &[4, 5, 6]];
    for (numbers, last) in given.iter().zip([4, 6]) {
        let items = ValueCow::Owned(list(alloc, numbers)?);
        let args = [items];
        assert!(rt; answer(alloc, "first", &args) == Some(CallReport::Value(Value::Integer(4))));
        assert!(rt; answer(alloc, "last", &args) == Some(CallReport::Value(Value::Integer(last))));
    }
    for name in ["first", "last"] {
        let answered = answer(alloc, name, &[ValueCow::Owned(list(alloc, &[])?)]);
        assert!(rt; answered == Some(CallReport::Value(Value::None)));
        let wrong = answer(alloc, name, &[integer(1)]);
        assert!(rt; wrong == Some(CallReport::WrongType(0, "list")));
    }
    Ok(())
}

#[test]
fn reversed(rt: HostRuntime) -> Result<(), Fail> {
    let alloc = rt.alloc();
    let given: [&[i64]; 3] = [&[], &[4], &[4, 5, 6]];
    let wanted: [&[i64]; 3] = [&[], &[4], &[6, 5, 4]];
    for (numbers, turned) in given.iter().zip(wanted) {
        let answered = answer(alloc, "reverse", &[ValueCow::Owned(list(alloc, numbers)?)]);
        assert!(rt; answered == Some(CallReport::Value(list(alloc, turned)?)));
    }
    Ok(())
}

// A map of two entries.
fn map(alloc: Global) -> Result<Value, AllocError> {
    let later = (String::from_str(alloc, "b")?, Value::Integer(1));
    let sooner = (String::from_str(alloc, "a")?, Value::Integer(2));
    Value::from_pairs(alloc, [later, sooner])
}

#[test]
fn maps(rt: HostRuntime) -> Result<(), Fail> {
    let alloc = rt.alloc();
    let keys = Value::from_array(
        alloc,
        [Value::from_text(alloc, "a")?, Value::from_text(alloc, "b")?],
    )?;
    let answered = answer(alloc, "keys", &[ValueCow::Owned(map(alloc)?)]);
    assert!(rt; answered == Some(CallReport::Value(keys)));
    let answered = answer(alloc, "values", &[ValueCow::Owned(map(alloc)?)]);
    assert!(rt; answered == Some(CallReport::Value(list(alloc, &[2, 1])?)));
    for (key, wanted) in [("a", 2), ("b", 1), ("", 7), ("ab", 7)] {
        let args = [ValueCow::Owned(map(alloc)?), text(alloc, key)?, integer(7)];
        assert!(rt; answer(alloc, "get", &args) == Some(CallReport::Value(Value::Integer(wanted))));
    }
    let wrong = answer(alloc, "get", &[integer(1), text(alloc, "a")?, integer(7)]);
    assert!(rt; wrong == Some(CallReport::WrongType(0, "map")));
    let wrong = answer(
        alloc,
        "get",
        &[ValueCow::Owned(map(alloc)?), integer(1), integer(7)],
    );
    assert!(rt; wrong == Some(CallReport::WrongType(1, "&str")));
    Ok(())
}

// A list of texts.
fn texts(alloc: Global, given: &[&str]) -> Result<ValueCow<'static>, AllocError> {
    let mut items = Vec::new(alloc);
    for item in given {
        items.push(Value::from_text(alloc, item)?)?;
    }
    Ok(ValueCow::Owned(Value::List(items)))
}

#[test]
fn joined(rt: HostRuntime) -> Result<(), Fail> {
    let alloc = rt.alloc();
    let given: [&[&str]; 4] = [&[], &["a"], &["a", "", "\u{1f600}"], &["", ""]];
    for (pieces, wanted) in given.iter().zip(["", "a", "a, , \u{1f600}", ", "]) {
        let answered = answer(alloc, "join", &[texts(alloc, pieces)?, text(alloc, ", ")?]);
        assert!(rt; answered == Some(CallReport::Value(Value::from_text(alloc, wanted)?)));
    }
    let mixed = [ValueCow::Owned(list(alloc, &[1])?), text(alloc, ", ")?];
    assert!(rt; answer(alloc, "join", &mixed) == fault(alloc, "cannot join integer")?);
    let wrong = answer(alloc, "join", &[texts(alloc, &["a"])?, integer(1)]);
    assert!(rt; wrong == Some(CallReport::WrongType(1, "&str")));
    Ok(())
}
