// Values that are no schemas that are known here, and what is said of them.
use crate::said::{json, said};
use std::test::Fail;

const ROWS: [(&str, &str); 24] = [
    ("null", "no schema"),
    ("1", "no schema"),
    (r#""string""#, "no schema"),
    ("[]", "no schema"),
    (r#"{"minimum": 1}"#, "unknown keyword at /minimum"),
    (r#"{"properties": {"a": {"minimum": 1}}}"#, "unknown keyword at /properties/a/minimum"),
    (r#"{"properties": {"a/b~c": {"minimum": 1}}}"#, "unknown keyword at /properties/a~1b~0c/minimum"),
    (r#"{"items": {"items": {"x/y": 1}}}"#, "unknown keyword at /items/items/x~1y"),
    (r#"{"additionalProperties": {"anyOf": []}}"#, "unknown keyword at /additionalProperties/anyOf"),
    (r#"{"type": 1}"#, "wrong value at /type"),
    (r#"{"type": "text"}"#, "wrong value at /type"),
    (r#"{"type": ["string", 1]}"#, "wrong value at /type"),
    (r#"{"type": ["string", "strings"]}"#, "wrong value at /type"),
    (r#"{"properties": []}"#, "wrong value at /properties"),
    (r#"{"properties": {"a": 1}}"#, "wrong value at /properties/a"),
    (r#"{"required": "a"}"#, "wrong value at /required"),
    (r#"{"required": ["a", 1]}"#, "wrong value at /required"),
    (r#"{"items": [true]}"#, "wrong value at /items"),
    (r#"{"enum": "a"}"#, "wrong value at /enum"),
    (r##"{"$ref": 1}"##, "wrong value at /$ref"),
    (r##"{"$ref": "#/$defs/a"}"##, "no definition for /$ref"),
    (r##"{"$ref": "#/$defs/a/b", "$defs": {"a": {"b": true}, "a/b": true}}"##, "no definition for /$ref"),
    (r##"{"items": {"$ref": "other.json"}}"##, "no definition for /items/$ref"),
    (
        r##"{"$ref": "#/$defs/a", "$defs": {"a": {"items": {"minimum": 1}}}}"##,
        "unknown keyword at /$ref/items/minimum",
    ),
];

#[test]
fn all_are_refused(rt: HostRuntime) -> Result<(), Fail> {
    let alloc = rt.alloc();
    for (schema, wanted) in ROWS {
        let found = said(alloc, &json(alloc, schema)?)?;
        if found.as_str() != wanted {
            return Err(Fail::new(format_args!("{found} in place of {wanted}, of {schema}")));
        }
    }
    Ok(())
}
