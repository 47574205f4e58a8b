// Values that are valid by a schema have its shape, and others have not.
use crate::said::{json, shape};
use std::alloc::Global;
use std::test::Fail;
use upon_shape::shape::Shape;

const TREE: &str = r##"{
    "type": "object",
    "properties": {
        "name": {"type": "string"},
        "price": {"type": "number"},
        "tags": {"type": "array", "items": {"enum": ["new", "old"]}},
        "owner": {"$ref": "#/$defs/person"},
        "kids": {"type": "array", "items": {"$ref": "#"}}
    },
    "required": ["name"],
    "additionalProperties": false,
    "$defs": {
        "person": {"type": ["object", "null"], "properties": {"age": {"type": "integer"}}, "required": ["age"]}
    }
}"##;

// Each row: a value, and whether it has the shape.
fn all_fit(alloc: Global, schema: &str, rows: &[(&str, bool)]) -> Result<(), Fail> {
    let shape = shape(alloc, schema)?;
    for (value, wanted) in rows {
        let own = Shape::of(alloc, &json(alloc, value)?)?;
        if shape.is_as_wide_as(&own) != *wanted {
            return Err(Fail::new(format_args!("{value} of {schema}")));
        }
    }
    Ok(())
}

#[test]
fn of_a_tree(rt: HostRuntime) -> Result<(), Fail> {
    all_fit(
        rt.alloc(),
        TREE,
        &[
            (r#"{"name": "a"}"#, true),
            (r#"{"name": "a", "price": 1, "tags": [], "owner": null}"#, true),
            (r#"{"name": "a", "price": 1.5, "tags": ["new"], "owner": {"age": 1, "more": 2}}"#, true),
            (r#"{"name": "a", "kids": [{"name": "b"}]}"#, true),
            (r#"{"name": 1}"#, false),
            ("{}", false),
            ("[]", false),
            (r#"{"name": "a", "other": 1}"#, false),
            (r#"{"name": "a", "tags": [1]}"#, false),
            (r#"{"name": "a", "owner": {"age": "1"}}"#, false),
            (r#"{"name": "a", "owner": {}}"#, false),
            (r#"{"name": "a", "owner": 1}"#, false),
        ],
    )
}

#[test]
fn of_kinds(rt: HostRuntime) -> Result<(), Fail> {
    let alloc = rt.alloc();
    all_fit(alloc, r#"{"type": "null"}"#, &[("null", true), ("false", false), ("0", false)])?;
    all_fit(alloc, r#"{"type": "boolean"}"#, &[("true", true), ("null", false), ("1", false)])?;
    all_fit(
        alloc,
        r#"{"type": "integer"}"#,
        &[("1", true), ("-9223372036854775808", true), (r#""1""#, false), ("1.5", false)],
    )?;
    all_fit(
        alloc,
        r#"{"type": "number"}"#,
        &[("1", true), ("1.5", true), ("9223372036854775808", true), ("true", false)],
    )?;
    all_fit(alloc, r#"{"type": "string"}"#, &[(r#""""#, true), ("1", false), ("[]", false)])?;
    all_fit(alloc, r#"{"type": "array"}"#, &[("[]", true), ("[1, null]", true), ("{}", false)])?;
    all_fit(alloc, r#"{"type": "object"}"#, &[("{}", true), (r#"{"a": [1]}"#, true), ("[]", false)])?;
    all_fit(alloc, "{}", &[("null", true), (r#"[{"a": 1}]"#, true)])?;
    all_fit(alloc, "false", &[("null", false), ("[]", false)])
}
