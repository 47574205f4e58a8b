// What the rows say: which value the data become, or why they are refused.
use crate::data::wanted::is_value;
use serde::Serialize;
use std::alloc::{AllocError, Global};
use std::process::Abort;
use upon_serde::to_value;
use upon_types::error::{ErrorKind, Result};
use upon_types::value::Value;

/// Checks that the data become this value.
pub fn is<T: Serialize + Drop>(
    rt: &(impl Abort + AllocGlobal),
    data: T,
    wanted: std::result::Result<Value, AllocError>,
) -> Result<()> {
    is_value(rt, to_value(rt.alloc(), data)?, wanted?);
    Ok(())
}

/// Checks that the data are refused for this reason.
pub fn is_refused<T: Serialize + Drop>(rt: &(impl Abort + AllocGlobal), data: T, reason: &str) {
    match to_value(rt.alloc(), data) {
        Ok(value) => panic!(rt; "{value:?} where {reason} is wanted"),
        Err(error) => {
            assert!(rt; matches!(error.kind(), ErrorKind::Serialize), "{error}");
            assert_eq!(rt; error.reason(), Some(reason));
            assert!(rt; error.place().is_none());
            assert!(rt; error.template_name().is_none());
        }
    }
}

/// Returns a list of two.
pub fn two(alloc: Global, first: Value, second: Value) -> std::result::Result<Value, AllocError> {
    Ok(Value::List(vec![in alloc; first, second]?))
}
