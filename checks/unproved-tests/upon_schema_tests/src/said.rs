// What is said of a schema, as one line.
use std::alloc::{AllocError, Global};
use std::collections::BTreeMap;
use std::test::Fail;
use upon_shape::shape::Shape;
use upon_types::value::Value;

/// Returns the value of a text of JSON.
pub fn json(alloc: Global, text: &str) -> Result<Value, Fail> {
    match upon_data::lines::json(alloc, text) {
        Ok(value) => Ok(value),
        Err(_) => Err(Fail::new(format_args!("no JSON: {text}"))),
    }
}

/// Returns the shape of a schema, which is one.
pub fn shape(alloc: Global, text: &str) -> Result<Shape, Fail> {
    match upon_schema::read::shape_of_schema(alloc, &json(alloc, text)?) {
        Ok(shape) => Ok(shape),
        Err(fault) => Err(Fail::new(format_args!("{fault} of {text}"))),
    }
}

/// Returns the schema of the shape of a schema, or what is said of its fault.
pub fn said(alloc: Global, schema: &Value) -> Result<String, AllocError> {
    match upon_schema::read::shape_of_schema(alloc, schema) {
        Ok(shape) => schema_text(alloc, &shape),
        Err(fault) => format!(in alloc; "{fault}"),
    }
}

/// Returns the text of the schema of a shape.
pub fn schema_text(alloc: Global, shape: &Shape) -> Result<String, AllocError> {
    let mut text = String::new(alloc);
    write(alloc, &upon_schema::write::schema_of(alloc, shape)?, &mut text)?;
    Ok(text)
}

// Writes a value as JSON without spaces. Texts have to have nothing that is escaped.
#[cycle(write)]
fn write(alloc: Global, value: &Value, text: &mut String) -> Result<(), AllocError> {
    match value {
        Value::None => text.push_str("null")?,
        Value::Bool(truth) => text.push_str(if *truth { "true" } else { "false" })?,
        Value::Integer(number) => text.push_str(format!(in alloc; "{number}")?.as_str())?,
        Value::String(word) => text.push_str(format!(in alloc; "\"{word}\"")?.as_str())?,
        Value::List(items) => write_items(alloc, items, text)?,
        Value::Map(entries) => write_entries(alloc, entries, text)?,
    }
    Ok(())
}

#[cycle(write)]
fn write_items(alloc: Global, items: &[Value], text: &mut String) -> Result<(), AllocError> {
    text.push('[')?;
    for (index, item) in items.iter().enumerate() {
        if index > 0 {
            text.push(',')?;
        }
        write(alloc, item, text)?;
    }
    text.push(']')?;
    Ok(())
}

#[cycle(write)]
fn write_entries(
    alloc: Global,
    entries: &BTreeMap<String, Value>,
    text: &mut String,
) -> Result<(), AllocError> {
    text.push('{')?;
    let mut separator = "";
    for (key, value) in entries.iter() {
        text.push_str(format!(in alloc; "{separator}\"{key}\":")?.as_str())?;
        write(alloc, value, text)?;
        separator = ",";
    }
    text.push('}')?;
    Ok(())
}
