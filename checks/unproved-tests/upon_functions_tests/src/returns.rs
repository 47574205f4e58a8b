// Every return and every refusal, with what it becomes.
use super::reports::{CallReport, report, report_error};
use std::alloc::{AllocError, Global};
use std::collections::BTreeMap;
use std::process::Abort;
use std::test::Fail;
use upon::functions::{FunctionError, FunctionReturn};
use upon_types::value::Value;

fn becomes<R: FunctionReturn>(rt: &impl Abort, alloc: Global, returned: R, wanted: Value) {
    assert!(rt; report(returned.to_value(alloc)) == CallReport::Value(wanted));
}

#[test]
fn integers(rt: HostRuntime) {
    let alloc = rt.alloc();
    becomes(&rt, alloc, 255u8, Value::Integer(255));
    becomes(&rt, alloc, 65535u16, Value::Integer(65535));
    becomes(&rt, alloc, 4294967295u32, Value::Integer(4294967295));
    becomes(&rt, alloc, -128i8, Value::Integer(-128));
    becomes(&rt, alloc, -32768i16, Value::Integer(-32768));
    becomes(&rt, alloc, -2147483648i32, Value::Integer(-2147483648));
    becomes(&rt, alloc, i64::MIN, Value::Integer(i64::MIN));
}

#[test]
fn other_values(rt: HostRuntime) -> Result<(), Fail> {
    let alloc = rt.alloc();
    becomes(&rt, alloc, (), Value::None);
    becomes(&rt, alloc, true, Value::Bool(true));
    becomes(&rt, alloc, "t", Value::from_text(alloc, "t")?);
    becomes(
        &rt,
        alloc,
        String::from_str(alloc, "t")?,
        Value::from_text(alloc, "t")?,
    );
    becomes(&rt, alloc, Vec::new(alloc), Value::from_array(alloc, [])?);
    becomes(
        &rt,
        alloc,
        BTreeMap::new(alloc),
        Value::from_pairs(alloc, [])?,
    );
    becomes(&rt, alloc, Value::from(1), Value::from(1));
    Ok(())
}

#[test]
fn options_and_results(rt: HostRuntime) {
    let alloc = rt.alloc();
    becomes(&rt, alloc, Some(1u8), Value::from(1));
    becomes(&rt, alloc, None::<u8>, Value::None);
    let good: Result<u8, String> = Ok(1);
    becomes(&rt, alloc, good, Value::from(1));
    let inner: Result<Result<u8, &'static str>, AllocError> = Ok(Ok(1));
    becomes(&rt, alloc, inner, Value::from(1));
}

#[test]
fn refusals(rt: HostRuntime) -> Result<(), Fail> {
    let alloc = rt.alloc();
    let no = || String::from_str(alloc, "no");
    let text: Result<u8, String> = Err(no()?);
    assert!(rt; report(text.to_value(alloc)) == CallReport::Fault(no()?));
    let word: Result<u8, &'static str> = Err("no");
    assert!(rt; report(word.to_value(alloc)) == CallReport::Fault(no()?));
    let inner: Result<Result<u8, &'static str>, AllocError> = Ok(Err("no"));
    assert!(rt; report(inner.to_value(alloc)) == CallReport::Fault(no()?));
    let memory: Result<u8, AllocError> = Err(AllocError);
    assert!(rt; report(memory.to_value(alloc)) == CallReport::Memory);
    Ok(())
}

#[test]
fn errors(rt: HostRuntime) -> Result<(), Fail> {
    let alloc = rt.alloc();
    let no = || String::from_str(alloc, "no");
    assert!(rt; report_error(no()?.to_error(alloc)) == CallReport::Fault(no()?));
    assert!(rt; report_error("no".to_error(alloc)) == CallReport::Fault(no()?));
    assert!(rt; report_error(AllocError.to_error(alloc)) == CallReport::Memory);
    Ok(())
}
