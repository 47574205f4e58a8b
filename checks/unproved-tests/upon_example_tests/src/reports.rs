// The results of calls, in a form that tests can compare.
use upon::functions::{ArgError, CallError};
use upon_types::value::Value;

/// What a call says.
#[derive(Debug, Drop, PartialEq)]
pub enum CallReport {
    Value(Value),
    Arity(usize),
    WrongType(usize, &'static str),
    OutOfRange(usize, &'static str),
    Fault(String),
    Memory,
}

pub fn report(answer: Result<Value, CallError>) -> CallReport {
    match answer {
        Ok(value) => CallReport::Value(value),
        Err(error) => report_error(error),
    }
}

pub fn report_error(error: CallError) -> CallReport {
    match error {
        CallError::Arity(number) => CallReport::Arity(number),
        CallError::Arg(index, ArgError::WrongType(word)) => CallReport::WrongType(index, word),
        CallError::Arg(index, ArgError::OutOfRange(word)) => CallReport::OutOfRange(index, word),
        CallError::Fault(text) => CallReport::Fault(text),
        CallError::Memory => CallReport::Memory,
    }
}
