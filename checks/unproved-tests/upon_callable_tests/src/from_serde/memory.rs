// The answer is the value, or that memory is out. `checks/growths` runs these tests with each growth refused in turn.
use crate::from_serde::samples::Shape;
use crate::from_serde::wanted::{integers, one, with};
use std::alloc::{AllocError, Global};
use std::process::Abort;
use std::test::Fail;
use upon_serde::{Result, Value, to_value, value};
use upon_types::error::ErrorKind;

fn literal(alloc: Global) -> Result<Value> {
    value! { in alloc; list: [1, 2], none: None }
}

fn wanted_literal(alloc: Global) -> std::result::Result<Value, AllocError> {
    let map = one(alloc, "list", integers(alloc, &[1, 2])?)?;
    with(alloc, map, "none", Value::None)
}

// The answer is this value, where there was memory for both, or that memory is out.
fn is_or_out(rt: &impl Abort, made: Result<Value>, wanted: std::result::Result<Value, AllocError>) {
    match (made, wanted) {
        (Ok(made), Ok(wanted)) => assert!(rt; made == wanted, "{made:?}"),
        (Err(error), _) => assert!(rt; matches!(error.kind(), ErrorKind::OutOfMemory), "{error}"),
        (Ok(_), Err(_)) => {}
    }
}

#[test]
fn a_value_or_out_of_memory(rt: HostRuntime) -> std::result::Result<(), Fail> {
    let alloc = rt.alloc();
    is_or_out(&rt, literal(alloc), wanted_literal(alloc));
    let ring = Shape::Ring { inner: 3, outer: 5 };
    let inside = one(alloc, "inner", Value::Integer(3));
    let inside = inside.and_then(|map| with(alloc, map, "outer", Value::Integer(5)));
    let wanted = inside.and_then(|map| one(alloc, "Ring", map));
    is_or_out(&rt, to_value(alloc, ring), wanted);
    Ok(())
}

// A refusal, or that memory for its reason is out.
#[test]
fn a_refusal_or_out_of_memory(rt: HostRuntime) -> std::result::Result<(), Fail> {
    match to_value(rt.alloc(), [1.5f64]) {
        Ok(value) => panic!(rt; "{value:?}"),
        Err(error) => match error.reason() {
            Some(_) => assert!(rt; matches!(error.kind(), ErrorKind::Serialize)),
            None => assert!(rt; matches!(error.kind(), ErrorKind::OutOfMemory)),
        },
    }
    Ok(())
}
