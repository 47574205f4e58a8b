// Schemas, each with the schema of its shape.
use crate::said::{json, said};
use std::alloc::Global;
use std::test::Fail;

// Each row: a schema, and what is said of it.
fn all_are_said(alloc: Global, rows: &[(&str, &str)]) -> Result<(), Fail> {
    for (schema, wanted) in rows {
        let found = said(alloc, &json(alloc, schema)?)?;
        if found.as_str() != *wanted {
            return Err(Fail::new(format_args!("{found} in place of {wanted}, of {schema}")));
        }
    }
    Ok(())
}

#[test]
fn types(rt: HostRuntime) -> Result<(), Fail> {
    all_are_said(
        rt.alloc(),
        &[
            ("true", "true"),
            ("false", "false"),
            ("{}", "true"),
            (r#"{"type": "null"}"#, r#"{"type":"null"}"#),
            (r#"{"type": "boolean"}"#, r#"{"type":"boolean"}"#),
            (r#"{"type": "integer"}"#, r#"{"type":"integer"}"#),
            (r#"{"type": "number"}"#, r#"{"type":["integer","string"]}"#),
            (r#"{"type": "string"}"#, r#"{"type":"string"}"#),
            (r#"{"type": "array"}"#, r#"{"type":"array"}"#),
            (r#"{"type": "object"}"#, r#"{"type":"object"}"#),
            (r#"{"type": ["null", "string"]}"#, r#"{"type":["string","null"]}"#),
            (r#"{"type": ["number", "integer"]}"#, r#"{"type":["integer","string"]}"#),
            (r#"{"type": ["object", "array"]}"#, r#"{"type":["array","object"]}"#),
            (r#"{"type": ["string"]}"#, r#"{"type":"string"}"#),
            (r#"{"type": []}"#, "false"),
            (r#"{"type": ["null", "boolean", "number", "string", "array", "object"]}"#, "true"),
        ],
    )
}

#[test]
fn lists(rt: HostRuntime) -> Result<(), Fail> {
    all_are_said(
        rt.alloc(),
        &[
            (
                r#"{"type": "array", "items": {"type": "string"}}"#,
                r#"{"items":{"type":"string"},"type":"array"}"#,
            ),
            (r#"{"type": "array", "items": true}"#, r#"{"type":"array"}"#),
            (r#"{"type": "array", "items": false}"#, r#"{"items":false,"type":"array"}"#),
            (r#"{"type": "string", "items": {"type": "string"}}"#, r#"{"type":"string"}"#),
            (
                r#"{"items": {"type": "null"}}"#,
                r#"{"items":{"type":"null"},"type":["boolean","integer","string","array","object","null"]}"#,
            ),
            (
                r#"{"type": "array", "items": {"type": "array", "items": {"type": "integer"}}}"#,
                r#"{"items":{"items":{"type":"integer"},"type":"array"},"type":"array"}"#,
            ),
        ],
    )
}

#[test]
fn maps(rt: HostRuntime) -> Result<(), Fail> {
    all_are_said(
        rt.alloc(),
        &[
            (
                r#"{"type": "object", "properties": {"b": {"type": "null"}, "a": {"type": "string"}}, "required": ["a"]}"#,
                r#"{"properties":{"a":{"type":"string"},"b":{"type":"null"}},"required":["a"],"type":"object"}"#,
            ),
            (
                r#"{"type": "object", "required": ["a"]}"#,
                r#"{"properties":{"a":true},"required":["a"],"type":"object"}"#,
            ),
            (
                r#"{"type": "object", "required": ["b", "a", "b"], "additionalProperties": {"type": "integer"}}"#,
                r#"{"additionalProperties":{"type":"integer"},"properties":{"a":{"type":"integer"},"b":{"type":"integer"}},"required":["a","b"],"type":"object"}"#,
            ),
            (
                r#"{"type": "object", "properties": {"a": true}, "additionalProperties": false}"#,
                r#"{"additionalProperties":false,"properties":{"a":true},"type":"object"}"#,
            ),
            (r#"{"type": "object", "additionalProperties": true}"#, r#"{"type":"object"}"#),
            (r#"{"type": "object", "additionalProperties": {}}"#, r#"{"type":"object"}"#),
            (r#"{"additionalProperties": true, "items": {}, "properties": {}, "required": []}"#, "true"),
            (
                r#"{"type": "array", "properties": {"a": false}, "required": ["a"]}"#,
                r#"{"type":"array"}"#,
            ),
        ],
    )
}

#[test]
fn listed_values(rt: HostRuntime) -> Result<(), Fail> {
    all_are_said(
        rt.alloc(),
        &[
            (r#"{"enum": ["a", "b"]}"#, r#"{"type":"string"}"#),
            (r#"{"enum": ["a", null, 1.5, 2]}"#, r#"{"type":["integer","string","null"]}"#),
            (r#"{"enum": []}"#, "false"),
            (r#"{"enum": ["a", 1], "type": "integer"}"#, r#"{"type":"integer"}"#),
            (r#"{"enum": [true], "type": "integer"}"#, "false"),
            (r#"{"enum": [[1], ["a"]]}"#, r#"{"items":{"type":["integer","string"]},"type":"array"}"#),
            (
                r#"{"enum": [{"a": 1}, {"a": 2, "b": null}]}"#,
                r#"{"additionalProperties":false,"properties":{"a":{"type":"integer"},"b":{"type":"null"}},"required":["a"],"type":"object"}"#,
            ),
        ],
    )
}

#[test]
fn references(rt: HostRuntime) -> Result<(), Fail> {
    all_are_said(
        rt.alloc(),
        &[
            (
                r##"{"$ref": "#/$defs/a", "$defs": {"a": {"type": "string"}}}"##,
                r#"{"type":"string"}"#,
            ),
            (
                r##"{"$ref": "#/definitions/a", "definitions": {"a": {"type": "string"}}}"##,
                r#"{"type":"string"}"#,
            ),
            (
                r##"{"type": "array", "items": {"$ref": "#/$defs/a"}, "$defs": {"a": {"$ref": "#/$defs/b"}, "b": {"type": "null"}}}"##,
                r#"{"items":{"type":"null"},"type":"array"}"#,
            ),
            // What stands beside a reference is passed over.
            (
                r##"{"$ref": "#/$defs/a", "type": "null", "minimum": 1, "$defs": {"a": {"type": "string"}}}"##,
                r#"{"type":"string"}"#,
            ),
            // Keys with `~` and `/`, and one with `~1`.
            (
                r##"{"$ref": "#/$defs/a~1b~0c", "$defs": {"a/b~c": {"type": "null"}}}"##,
                r#"{"type":"null"}"#,
            ),
            (
                r##"{"$ref": "#/$defs/~01", "$defs": {"/": {"type": "string"}, "~1": {"type": "null"}}}"##,
                r#"{"type":"null"}"#,
            ),
            (
                r##"{"$ref": "#/$defs/é", "$defs": {"é": {"type": "null"}}}"##,
                r#"{"type":"null"}"#,
            ),
            (r##"{"$ref": "#/$defs/", "$defs": {"": {"type": "null"}}}"##, r#"{"type":"null"}"#),
        ],
    )
}

#[test]
fn rings_of_references(rt: HostRuntime) -> Result<(), Fail> {
    all_are_said(
        rt.alloc(),
        &[
            (r##"{"$ref": "#"}"##, "true"),
            (r##"{"$ref": "#/$defs/a", "$defs": {"a": {"$ref": "#/$defs/a"}}}"##, "true"),
            (
                r##"{"$ref": "#/$defs/a", "$defs": {"a": {"$ref": "#/$defs/b"}, "b": {"$ref": "#/$defs/a"}}}"##,
                "true",
            ),
            (
                r##"{"type": "object", "properties": {"kids": {"type": "array", "items": {"$ref": "#"}}}}"##,
                r#"{"properties":{"kids":{"type":"array"}},"type":"object"}"#,
            ),
            // Two uses of one definition, neither of them in the other.
            (
                r##"{"type": "object", "properties": {"a": {"$ref": "#/$defs/t"}, "b": {"$ref": "#/$defs/t"}}, "$defs": {"t": {"type": "string"}}}"##,
                r#"{"properties":{"a":{"type":"string"},"b":{"type":"string"}},"type":"object"}"#,
            ),
        ],
    )
}

#[test]
fn keywords_that_say_nothing(rt: HostRuntime) -> Result<(), Fail> {
    all_are_said(
        rt.alloc(),
        &[
            (
                r#"{"$schema": "s", "$id": "i", "$comment": "c", "title": "t", "description": "d", "default": 1, "examples": [1], "deprecated": true, "readOnly": true, "writeOnly": false, "$defs": {}, "definitions": {}, "type": "null"}"#,
                r#"{"type":"null"}"#,
            ),
            // A definition that is not referred to isn't looked at.
            (r#"{"$defs": {"a": {"minimum": 1}}}"#, "true"),
            (r#"{"default": {"minimum": 1}}"#, "true"),
        ],
    )
}
