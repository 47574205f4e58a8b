// Schemas that are too deep or too large, and those that just are not.
use crate::said::{json, said};
use std::alloc::{AllocError, Global};
use std::test::Fail;
use upon_types::value::Value;

// A schema of lists that lie so many deep one inside another.
fn nested(alloc: Global, depth: usize) -> Result<Value, AllocError> {
    let mut schema = Value::Bool(true);
    for _ in 1..depth {
        let mut keywords = std::collections::BTreeMap::new(alloc);
        keywords.insert(String::from_str(alloc, "items")?, schema)?;
        schema = Value::Map(keywords);
    }
    Ok(schema)
}

#[test]
fn depth(rt: HostRuntime) -> Result<(), Fail> {
    let alloc = rt.alloc();
    assert_eq!(rt; said(alloc, &nested(alloc, 128)?)?.as_str(), "true");
    assert_eq!(rt; said(alloc, &nested(alloc, 129)?)?.as_str(), "schemas nested too deep");
    Ok(())
}

// A schema whose definitions refer twice to the next one, so many times.
fn doubled(alloc: Global, times: usize) -> Result<String, AllocError> {
    let mut text = String::from_str(alloc, r##"{"$ref": "#/$defs/0", "$defs": {"##)?;
    for number in 0..times {
        let next = number + 1;
        text.push_str(
            format!(in alloc; "\"{number}\": {{\"properties\": {{\"a\": {{\"$ref\": \"#/$defs/{next}\"}}, \"b\": {{\"$ref\": \"#/$defs/{next}\"}}}}}}, ")?
                .as_str(),
        )?;
    }
    text.push_str(format!(in alloc; "\"{times}\": true}}}}")?.as_str())?;
    Ok(text)
}

#[test]
fn size(rt: HostRuntime) -> Result<(), Fail> {
    let alloc = rt.alloc();
    let small = json(alloc, &doubled(alloc, 10)?)?;
    assert_ne!(rt; said(alloc, &small)?.as_str(), "too many schemas");
    let large = json(alloc, &doubled(alloc, 40)?)?;
    assert_eq!(rt; said(alloc, &large)?.as_str(), "too many schemas");
    Ok(())
}
