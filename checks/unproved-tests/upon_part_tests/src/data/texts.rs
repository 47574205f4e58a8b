// What texts of each format become, and which are refused, with what is said of them.
use std::alloc::{AllocError, Global};
use std::test::Fail;
use upon_data::fault::DataFault;
use upon_data::format::{Format, read};
use upon_types::value::Value;

// A line that shows a value: lists in brackets, maps in braces, texts in quotes.
fn shown(alloc: Global, value: &Value) -> Result<String, AllocError> {
    format!(in alloc; "{value:?}")
}

// What is said of a text that gives no value.
fn said_of(alloc: Global, fault: &DataFault) -> Result<String, AllocError> {
    match fault {
        DataFault::Refused(refusal) => format!(in alloc; "{refusal}"),
        DataFault::OutOfMemory => String::from_str(alloc, "out of memory"),
    }
}

/// Checks that a text becomes the value that a text of JSON does.
pub fn becomes(alloc: Global, format: Format, text: &str, wanted: &str) -> Result<(), Fail> {
    let wanted = match read(alloc, Format::Json, wanted) {
        Ok(value) => value,
        Err(fault) => {
            let said = said_of(alloc, &fault)?;
            return Err(Fail::new(format_args!("{said} in {wanted}")));
        }
    };
    match read(alloc, format, text) {
        Ok(value) if value == wanted => Ok(()),
        Ok(value) => {
            let (got, wanted) = (shown(alloc, &value)?, shown(alloc, &wanted)?);
            Err(Fail::new(format_args!("{got} in place of {wanted}, of {text:?}")))
        }
        Err(fault) => {
            let said = said_of(alloc, &fault)?;
            Err(Fail::new(format_args!("{said}, of {text:?}")))
        }
    }
}

/// Checks that a text is refused, and that this is said of it.
pub fn is_refused(alloc: Global, format: Format, text: &str, wanted: &str) -> Result<(), Fail> {
    let said = match read(alloc, format, text) {
        Ok(value) => shown(alloc, &value)?,
        Err(fault) => said_of(alloc, &fault)?,
    };
    if said.as_str() == wanted {
        Ok(())
    } else {
        Err(Fail::new(format_args!("{said} in place of {wanted}, of {text:?}")))
    }
}
