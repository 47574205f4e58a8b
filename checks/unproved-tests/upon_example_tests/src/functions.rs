// Tests of the functions of docs/FUNCTIONS.md.
use crate::reports::{CallReport, report};
use std::alloc::{AllocError, Global};
use std::test::Fail;
use upon::functions::{Fn1, Fn1S, Fn1V, Fn2, Fn2SO, Function};
use upon_examples::functions::{
    Add, Double, Echo, IsLonger, Low, Positive, PositiveByClosure, Prefix,
};
use upon_types::value::{Value, ValueCow};

fn call(alloc: Global, function: &Box<dyn Function>, args: &[ValueCow]) -> CallReport {
    report(function.call(alloc, args))
}

fn owned(value: Value) -> ValueCow<'static> {
    ValueCow::Owned(value)
}

#[test]
fn one_argument(rt: HostRuntime) -> Result<(), Fail> {
    let alloc = rt.alloc();
    let double: Box<dyn Function> = Box::new(alloc, Fn1::<Double, i64, i64>::new(Double))?;
    let text = Value::from_text(alloc, "x")?;
    assert!(rt;
        call(alloc, &double, &[owned(Value::from(21))]) == CallReport::Value(Value::from(42))
    );
    assert!(rt;
        call(alloc, &double, &[ValueCow::Borrowed(&text)]) == CallReport::WrongType(0, "i64")
    );
    assert!(rt; call(alloc, &double, &[]) == CallReport::Arity(1));
    Ok(())
}

#[test]
fn two_arguments_of_which_one_is_lent(rt: HostRuntime) -> Result<(), Fail> {
    let alloc = rt.alloc();
    let is_longer: Box<dyn Function> = Box::new(
        alloc,
        Fn2SO::<IsLonger, usize, bool>::new(IsLonger),
    )?;
    for (number, wanted) in [(3, true), (4, false)] {
        let text = owned(Value::from_text(alloc, "four")?);
        let args = [text, owned(Value::Integer(number))];
        assert!(rt; call(alloc, &is_longer, &args) == CallReport::Value(Value::Bool(wanted)));
    }
    let text = owned(Value::from_text(alloc, "four")?);
    assert!(rt;
        call(alloc, &is_longer, &[text, owned(Value::Integer(-1))])
            == CallReport::OutOfRange(1, "usize")
    );
    Ok(())
}

#[test]
fn refuses(rt: HostRuntime) -> Result<(), Fail> {
    let alloc = rt.alloc();
    let positive: Box<dyn Function> = Box::new(
        alloc,
        Fn1::<Positive, i64, Result<Result<i64, String>, AllocError>>::new(Positive),
    )?;
    let refused = CallReport::Fault(String::from_str(alloc, "not a positive number")?);
    assert!(rt;
        call(alloc, &positive, &[owned(Value::from(1))]) == CallReport::Value(Value::from(1))
    );
    assert!(rt; call(alloc, &positive, &[owned(Value::from(0))]) == refused);
    Ok(())
}

#[test]
fn refuses_by_a_closure(rt: HostRuntime) -> Result<(), Fail> {
    let alloc = rt.alloc();
    let positive: Box<dyn Function> = Box::new(alloc, PositiveByClosure)?;
    let refused = CallReport::Fault(String::from_str(alloc, "not a positive number")?);
    assert!(rt;
        call(alloc, &positive, &[owned(Value::from(1))]) == CallReport::Value(Value::from(1))
    );
    assert!(rt; call(alloc, &positive, &[owned(Value::from(0))]) == refused);
    Ok(())
}

#[test]
fn keeps_data(rt: HostRuntime) -> Result<(), Fail> {
    let alloc = rt.alloc();
    let text = String::from_str(alloc, "Dr. ")?;
    let titled: Box<dyn Function> = Box::new(
        alloc,
        Fn1S::<Prefix, Result<String, AllocError>>::new(Prefix { text }),
    )?;
    let name = Value::from_text(alloc, "Who")?;
    let wanted = Value::from_text(alloc, "Dr. Who")?;
    assert!(rt; call(alloc, &titled, &[ValueCow::Borrowed(&name)]) == CallReport::Value(wanted));
    Ok(())
}

#[test]
fn integers(rt: HostRuntime) -> Result<(), Fail> {
    let alloc = rt.alloc();
    let add: Box<dyn Function> = Box::new(alloc, Fn2::<Add, i64, i64, i64>::new(Add))?;
    let low: Box<dyn Function> = Box::new(alloc, Fn1::<Low, u8, u8>::new(Low))?;
    let pair = [owned(Value::from(1)), owned(Value::from_text(alloc, "x")?)];
    assert!(rt;
        call(alloc, &add, &[owned(Value::from(1)), owned(Value::from(2))])
            == CallReport::Value(Value::from(3))
    );
    assert!(rt; call(alloc, &add, &pair) == CallReport::WrongType(1, "i64"));
    assert!(rt; call(alloc, &low, &[owned(Value::from(300))]) == CallReport::OutOfRange(0, "u8"));
    Ok(())
}

#[test]
fn any_value(rt: HostRuntime) -> Result<(), Fail> {
    let alloc = rt.alloc();
    let echo: Box<dyn Function> = Box::new(
        alloc,
        Fn1V::<Echo, Result<Value, AllocError>>::new(Echo),
    )?;
    let list = Value::from_array(alloc, [Value::from(1)])?;
    let wanted = list.try_clone()?;
    assert!(rt; call(alloc, &echo, &[ValueCow::Borrowed(&list)]) == CallReport::Value(wanted));
    Ok(())
}
