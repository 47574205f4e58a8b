// Functions that templates expect: what each answers, by its name.
pub mod choices;
pub mod integers;
pub mod lists;
pub mod texts;

use crate::functions::reports::{CallReport, report};
use std::alloc::{AllocError, Global};
use std::process::Abort;
use std::test::Fail;
use upon_functions::function::Function;
use upon_std::basic::table::ALL;
use upon_types::value::{Value, ValueCow};

// What the function with this name answers.
pub fn answer(alloc: Global, name: &str, args: &[ValueCow]) -> Option<CallReport> {
    for function in ALL {
        if function.name() == name {
            return Some(report(function.call(alloc, args)));
        }
    }
    None
}

pub fn integer(number: i64) -> ValueCow<'static> {
    ValueCow::Owned(Value::Integer(number))
}

pub fn truth(truth: bool) -> ValueCow<'static> {
    ValueCow::Owned(Value::Bool(truth))
}

pub fn text(alloc: Global, text: &str) -> Result<ValueCow<'static>, AllocError> {
    Ok(ValueCow::Owned(Value::from_text(alloc, text)?))
}

pub fn list(alloc: Global, numbers: &[i64]) -> Result<Value, AllocError> {
    let mut items = Vec::new(alloc);
    for number in numbers {
        items.push(Value::Integer(*number))?;
    }
    Ok(Value::List(items))
}

pub fn fault(alloc: Global, message: &str) -> Result<Option<CallReport>, AllocError> {
    Ok(Some(CallReport::Fault(String::from_str(alloc, message)?)))
}

// The names of all, in their order.
const NAMES: [&str; 36] = [
    "eq",
    "ne",
    "lt",
    "le",
    "gt",
    "ge",
    "not",
    "and",
    "or",
    "default",
    "choose",
    "add",
    "sub",
    "mul",
    "div",
    "rem",
    "min",
    "max",
    "neg",
    "abs",
    "decimal",
    "trim",
    "lower",
    "upper",
    "starts_with",
    "ends_with",
    "contains",
    "repeat",
    "length",
    "first",
    "last",
    "reverse",
    "join",
    "keys",
    "values",
    "get",
];

#[test]
fn names(rt: HostRuntime) -> Result<(), Fail> {
    for (function, name) in ALL.iter().zip(NAMES) {
        assert!(rt; function.name() == name);
    }
    assert!(rt; ALL.len() == 36);
    Ok(())
}
