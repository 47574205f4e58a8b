// Every owned argument: its least and its greatest value, and the values just outside.
use super::reports::{CallReport, report_error};
use std::alloc::Global;
use std::collections::BTreeMap;
use std::process::Abort;
use std::test::Fail;
use upon::functions::OwnedArgument;
use upon_types::value::Value;

fn takes<A: OwnedArgument + PartialEq + Drop>(alloc: Global, from: &Value, wanted: &A) -> bool {
    match A::from_value(alloc, 3, from) {
        Ok(argument) => argument == *wanted,
        Err(_) => false,
    }
}

fn refusal<A: OwnedArgument + Drop>(alloc: Global, from: &Value) -> Option<CallReport> {
    A::from_value(alloc, 3, from).err().map(report_error)
}

// Takes the bounds, each as an integer value and as what it becomes; refuses integers outside and a text.
fn takes_range<A: OwnedArgument + PartialEq + Drop>(
    rt: &impl Abort,
    alloc: Global,
    word: &'static str,
    bounds: [(i64, A); 2],
    outside: &[i64],
) -> Result<(), Fail> {
    for (number, wanted) in &bounds {
        assert!(rt; takes(alloc, &Value::Integer(*number), wanted));
    }
    for number in outside {
        assert!(rt;
            refusal::<A>(alloc, &Value::Integer(*number)) == Some(CallReport::OutOfRange(3, word))
        );
    }
    assert!(rt;
        refusal::<A>(alloc, &Value::from_text(alloc, "1")?) == Some(CallReport::WrongType(3, word))
    );
    Ok(())
}

#[test]
fn unsigned_integers(rt: HostRuntime) -> Result<(), Fail> {
    let alloc = rt.alloc();
    takes_range::<u8>(&rt, alloc, "u8", [(0, 0), (255, 255)], &[-1, 256])?;
    takes_range::<u16>(&rt, alloc, "u16", [(0, 0), (65535, 65535)], &[-1, 65536])?;
    takes_range::<u32>(
        &rt,
        alloc,
        "u32",
        [(0, 0), (4294967295, 4294967295)],
        &[-1, 4294967296],
    )?;
    Ok(())
}

#[test]
fn long_unsigned_integers(rt: HostRuntime) -> Result<(), Fail> {
    let alloc = rt.alloc();
    takes_range::<u64>(
        &rt,
        alloc,
        "u64",
        [(0, 0), (i64::MAX, 9223372036854775807)],
        &[-1],
    )?;
    takes_range::<usize>(
        &rt,
        alloc,
        "usize",
        [(0, 0), (i64::MAX, 9223372036854775807)],
        &[-1],
    )?;
    takes_range::<u128>(
        &rt,
        alloc,
        "u128",
        [(0, 0), (i64::MAX, 9223372036854775807)],
        &[-1],
    )?;
    Ok(())
}

#[test]
fn signed_integers(rt: HostRuntime) -> Result<(), Fail> {
    let alloc = rt.alloc();
    takes_range::<i8>(&rt, alloc, "i8", [(-128, -128), (127, 127)], &[-129, 128])?;
    takes_range::<i16>(
        &rt,
        alloc,
        "i16",
        [(-32768, -32768), (32767, 32767)],
        &[-32769, 32768],
    )?;
    takes_range::<i32>(
        &rt,
        alloc,
        "i32",
        [(-2147483648, -2147483648), (2147483647, 2147483647)],
        &[-2147483649, 2147483648],
    )?;
    Ok(())
}

#[test]
fn long_signed_integers(rt: HostRuntime) -> Result<(), Fail> {
    let alloc = rt.alloc();
    takes_range::<i64>(
        &rt,
        alloc,
        "i64",
        [(i64::MIN, i64::MIN), (i64::MAX, i64::MAX)],
        &[],
    )?;
    takes_range::<isize>(
        &rt,
        alloc,
        "isize",
        [
            (i64::MIN, -9223372036854775808),
            (i64::MAX, 9223372036854775807),
        ],
        &[],
    )?;
    takes_range::<i128>(
        &rt,
        alloc,
        "i128",
        [
            (i64::MIN, -9223372036854775808),
            (i64::MAX, 9223372036854775807),
        ],
        &[],
    )?;
    Ok(())
}

#[test]
fn one_kind_of_value(rt: HostRuntime) -> Result<(), Fail> {
    let alloc = rt.alloc();
    assert!(rt; takes(alloc, &Value::None, &()));
    assert!(rt;
        takes(alloc, &Value::Bool(true), &true) && takes(alloc, &Value::Bool(false), &false)
    );
    assert!(rt;
        takes(
            alloc,
            &Value::from_text(alloc, "t")?,
            &String::from_str(alloc, "t")?
        )
    );
    assert!(rt; takes(alloc, &Value::from(0), &Value::from(0)));
    Ok(())
}

#[test]
fn lists_and_maps(rt: HostRuntime) -> Result<(), Fail> {
    let alloc = rt.alloc();
    let list = Value::from_array(alloc, [Value::from(1), Value::None])?;
    let map = Value::from_pairs(alloc, [(String::from_str(alloc, "a")?, Value::from(1))])?;
    match Vec::from_value(alloc, 3, &list) {
        Ok(items) => assert!(rt; Value::List(items) == list),
        Err(_) => assert!(rt; false),
    }
    match BTreeMap::from_value(alloc, 3, &map) {
        Ok(entries) => assert!(rt; Value::Map(entries) == map),
        Err(_) => assert!(rt; false),
    }
    Ok(())
}

#[test]
fn other_kinds_of_values(rt: HostRuntime) {
    let alloc = rt.alloc();
    let wrong = Value::from(1);
    assert!(rt; refusal::<()>(alloc, &wrong) == Some(CallReport::WrongType(3, "()")));
    assert!(rt; refusal::<bool>(alloc, &wrong) == Some(CallReport::WrongType(3, "bool")));
    assert!(rt; refusal::<String>(alloc, &wrong) == Some(CallReport::WrongType(3, "string")));
    assert!(rt; refusal::<Vec<Value>>(alloc, &wrong) == Some(CallReport::WrongType(3, "list")));
    assert!(rt;
        refusal::<BTreeMap<String, Value>>(alloc, &wrong) == Some(CallReport::WrongType(3, "map"))
    );
}
