// The content of JSON strings.
use crate::quote::rows::{Row, are, is, refuses};
use std::test::Fail;
use upon_quote::json::Json;
use upon_types::value::Value;

// RFC 8259, section 7: what has to be escaped, and the separators that JavaScript once took for line breaks.
const ROWS: &[Row] = &[
    ("", ""),
    ("Ann", "Ann"),
    ("\"", "\\\""),
    ("\\", "\\\\"),
    ("\\\"", "\\\\\\\""),
    ("/<>&'", "/<>&'"),
    ("\u{8}\t\n\u{c}\r", "\\b\\t\\n\\f\\r"),
    ("\0\u{1}\u{7}\u{b}", "\\u0000\\u0001\\u0007\\u000b"),
    ("\u{e}\u{1b}\u{1f} ", "\\u000e\\u001b\\u001f "),
    ("\u{7f}\u{80}\u{a0}", "\u{7f}\u{80}\u{a0}"),
    (
        "\u{2027}\u{2028}\u{2029}\u{202a}",
        "\u{2027}\\u2028\\u2029\u{202a}",
    ),
    (
        "\u{e9}\"\u{65e5}\n\u{1f600}\\",
        "\u{e9}\\\"\u{65e5}\\n\u{1f600}\\\\",
    ),
    ("\", \"admin\": true, \"", "\\\", \\\"admin\\\": true, \\\""),
    ("a\nb", "a\\nb"),
];

#[test]
fn texts(rt: HostRuntime) -> Result<(), Fail> {
    Ok(are(&rt, rt.alloc(), &Json, ROWS)?)
}

#[test]
fn other_values(rt: HostRuntime) -> Result<(), Fail> {
    let alloc = rt.alloc();
    is(&rt, alloc, &Json, &Value::None, "")?;
    is(&rt, alloc, &Json, &Value::Bool(true), "true")?;
    is(&rt, alloc, &Json, &Value::Bool(false), "false")?;
    is(&rt, alloc, &Json, &Value::Integer(-10), "-10")?;
    Ok(refuses(&rt, alloc, &Json)?)
}
