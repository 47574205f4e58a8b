// The content of double-quoted scalars of YAML.
use crate::quote::rows::{Row, are, is, refuses};
use std::test::Fail;
use upon_quote::yaml::Yaml;
use upon_types::value::Value;

// YAML 1.2.2, sections 5.1 and 5.7: what is not printable, and what could be a line break or a space.
const ROWS: &[Row] = &[
    ("", ""),
    (" Ann: #1 ", " Ann: #1 "),
    ("\"", "\\\""),
    ("\\", "\\\\"),
    ("\\\"", "\\\\\\\""),
    ("/<>&'", "/<>&'"),
    ("\0\t\n\r", "\\0\\t\\n\\r"),
    ("\u{1}\u{7}\u{8}\u{b}\u{c}", "\\x01\\x07\\x08\\x0b\\x0c"),
    ("\u{1b}\u{1f} ~", "\\x1b\\x1f ~"),
    ("\u{7f}\u{80}\u{84}\u{85}", "\\x7f\\x80\\x84\\x85"),
    ("\u{86}\u{9f}\u{a0}\u{a1}", "\\x86\\x9f\\xa0\u{a1}"),
    (
        "\u{2027}\u{2028}\u{2029}\u{202a}",
        "\u{2027}\\u2028\\u2029\u{202a}",
    ),
    ("\u{d7ff}\u{e000}", "\u{d7ff}\u{e000}"),
    (
        "\u{feff}\u{fffd}\u{fffe}\u{ffff}",
        "\\ufeff\u{fffd}\\ufffe\\uffff",
    ),
    ("\u{10000}\u{10ffff}", "\u{10000}\u{10ffff}"),
    (
        "\u{e9}\"\u{65e5}\n\u{1f600}\\",
        "\u{e9}\\\"\u{65e5}\\n\u{1f600}\\\\",
    ),
    ("\"\nadmin: true #", "\\\"\\nadmin: true #"),
];

#[test]
fn texts(rt: HostRuntime) -> Result<(), Fail> {
    Ok(are(&rt, rt.alloc(), &Yaml, ROWS)?)
}

#[test]
fn other_values(rt: HostRuntime) -> Result<(), Fail> {
    let alloc = rt.alloc();
    is(&rt, alloc, &Yaml, &Value::None, "")?;
    is(&rt, alloc, &Yaml, &Value::Bool(true), "true")?;
    is(&rt, alloc, &Yaml, &Value::Bool(false), "false")?;
    is(&rt, alloc, &Yaml, &Value::Integer(-10), "-10")?;
    Ok(refuses(&rt, alloc, &Yaml)?)
}
