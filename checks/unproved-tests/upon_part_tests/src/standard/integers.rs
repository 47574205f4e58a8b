// Functions of integers: results, refusals and decimals.
use super::{answer, fault, integer, text};
use crate::functions::reports::CallReport;
use std::process::Abort;
use std::test::Fail;
use upon_types::value::Value;

#[test]
fn of_two(rt: HostRuntime) -> Result<(), Fail> {
    let alloc = rt.alloc();
    for (name, first, second, wanted) in [
        ("add", 1, 2, 3),
        ("add", i64::MAX - 1, 1, i64::MAX),
        ("sub", 1, 2, -1),
        ("sub", i64::MIN + 1, 1, i64::MIN),
        ("mul", 3, -4, -12),
        ("div", 7, 2, 3),
        ("div", -7, 2, -3),
        ("div", i64::MIN, 1, i64::MIN),
        ("rem", 7, -2, 1),
        ("rem", -7, 2, -1),
        ("rem", i64::MIN, -1, 0),
        ("min", 1, 2, 1),
        ("min", -1, -2, -2),
        ("max", 1, 2, 2),
    ] {
        let args = [integer(first), integer(second)];
        assert!(rt; answer(alloc, name, &args) == Some(CallReport::Value(Value::Integer(wanted))));
    }
    Ok(())
}

#[test]
fn refusals(rt: HostRuntime) -> Result<(), Fail> {
    let alloc = rt.alloc();
    for (name, first, second, message) in [
        ("add", i64::MAX, 1, "integer overflow"),
        ("sub", i64::MIN, 1, "integer overflow"),
        ("mul", i64::MAX, 2, "integer overflow"),
        ("div", i64::MIN, -1, "integer overflow"),
        ("div", 1, 0, "division by zero"),
        ("rem", 1, 0, "division by zero"),
        ("decimal", 1, 19, "decimal takes 0 to 18 places"),
        ("decimal", 1, -1, "decimal takes 0 to 18 places"),
    ] {
        let args = [integer(first), integer(second)];
        assert!(rt; answer(alloc, name, &args) == fault(alloc, message)?);
    }
    assert!(rt; answer(alloc, "neg", &[integer(i64::MIN)]) == fault(alloc, "integer overflow")?);
    assert!(rt; answer(alloc, "abs", &[integer(i64::MIN)]) == fault(alloc, "integer overflow")?);
    Ok(())
}

#[test]
fn of_one(rt: HostRuntime) -> Result<(), Fail> {
    let alloc = rt.alloc();
    for (name, number, wanted) in [
        ("neg", 5, -5),
        ("neg", i64::MAX, -9223372036854775807),
        ("abs", -5, 5),
        ("abs", 5, 5),
        ("abs", 0, 0),
    ] {
        let answered = answer(alloc, name, &[integer(number)]);
        assert!(rt; answered == Some(CallReport::Value(Value::Integer(wanted))));
    }
    assert!(rt; answer(alloc, "neg", &[]) == Some(CallReport::Arity(1)));
    let wrong = answer(alloc, "add", &[integer(1), text(alloc, "1")?]);
    assert!(rt; wrong == Some(CallReport::WrongType(1, "i64")));
    Ok(())
}

#[test]
fn decimals(rt: HostRuntime) -> Result<(), Fail> {
    let alloc = rt.alloc();
    for (number, places, wanted) in [
        (1990, 2, "19.90"),
        (-5, 2, "-0.05"),
        (0, 0, "0"),
        (7, 0, "7"),
        (-70, 1, "-7.0"),
        (5, 3, "0.005"),
        (i64::MIN, 18, "-9.223372036854775808"),
        (i64::MAX, 0, "9223372036854775807"),
    ] {
        let answered = answer(alloc, "decimal", &[integer(number), integer(places)]);
        assert!(rt; answered == Some(CallReport::Value(Value::from_text(alloc, wanted)?)));
    }
    Ok(())
}
