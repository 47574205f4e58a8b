// Functions that compare and choose.
use super::{answer, fault, integer, text, truth};
use crate::functions::reports::CallReport;
use std::process::Abort;
use std::test::Fail;
use upon_types::value::{Value, ValueCow};

#[test]
fn integers(rt: HostRuntime) -> Result<(), Fail> {
    let alloc = rt.alloc();
    for (name, below, equal, above) in [
        ("eq", false, true, false),
        ("ne", true, false, true),
        ("lt", true, false, false),
        ("le", true, true, false),
        ("gt", false, false, true),
        ("ge", false, true, true),
    ] {
        for (first, second, wanted) in [
            (-1, 0, below),
            (7, 7, equal),
            (i64::MAX, i64::MIN, above),
        ] {
            let answered = answer(alloc, name, &[integer(first), integer(second)]);
            assert!(rt; answered == Some(CallReport::Value(Value::Bool(wanted))));
        }
    }
    Ok(())
}

#[test]
fn texts(rt: HostRuntime) -> Result<(), Fail> {
    let alloc = rt.alloc();
    for (first, second, wanted) in [
        ("", "a", true),
        ("a", "ab", true),
        ("Z", "a", true),
        ("\u{ffff}", "\u{1f600}", true),
        ("b", "ab", false),
        ("a", "a", false),
    ] {
        let answered = answer(alloc, "lt", &[text(alloc, first)?, text(alloc, second)?]);
        assert!(rt; answered == Some(CallReport::Value(Value::Bool(wanted))));
    }
    let mixed = answer(alloc, "lt", &[text(alloc, "1")?, integer(1)]);
    assert!(rt; mixed == fault(alloc, "cannot compare string with integer")?);
    let mixed = answer(alloc, "ge", &[ValueCow::Owned(Value::None), truth(true)]);
    assert!(rt; mixed == fault(alloc, "cannot compare none with bool")?);
    let same = answer(alloc, "eq", &[text(alloc, "1")?, integer(1)]);
    assert!(rt; same == Some(CallReport::Value(Value::Bool(false))));
    Ok(())
}

#[test]
fn truths(rt: HostRuntime) -> Result<(), Fail> {
    let alloc = rt.alloc();
    for (first, second, and, or) in [
        (0, 0, false, false),
        (0, 2, false, true),
        (2, 0, false, true),
        (2, 3, true, true),
    ] {
        let args = [integer(first), integer(second)];
        assert!(rt; answer(alloc, "and", &args) == Some(CallReport::Value(Value::Bool(and))));
        assert!(rt; answer(alloc, "or", &args) == Some(CallReport::Value(Value::Bool(or))));
    }
    for (number, wanted) in [(0, true), (1, false)] {
        let answered = answer(alloc, "not", &[integer(number)]);
        assert!(rt; answered == Some(CallReport::Value(Value::Bool(wanted))));
    }
    assert!(rt; answer(alloc, "and", &[]) == Some(CallReport::Arity(2)));
    Ok(())
}

#[test]
fn choices(rt: HostRuntime) -> Result<(), Fail> {
    let alloc = rt.alloc();
    for (condition, wanted) in [(true, 1), (false, 2)] {
        let answered = answer(alloc, "choose", &[truth(condition), integer(1), integer(2)]);
        assert!(rt; answered == Some(CallReport::Value(Value::Integer(wanted))));
    }
    let none = ValueCow::Owned(Value::None);
    let answered = answer(alloc, "default", &[none, integer(2)]);
    assert!(rt; answered == Some(CallReport::Value(Value::Integer(2))));
    let answered = answer(alloc, "default", &[integer(0), integer(2)]);
    assert!(rt; answered == Some(CallReport::Value(Value::Integer(0))));
    assert!(rt; answer(alloc, "choose", &[integer(1)]) == Some(CallReport::Arity(3)));
    Ok(())
}
