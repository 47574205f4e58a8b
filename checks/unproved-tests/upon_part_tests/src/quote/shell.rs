// Words of a POSIX shell.
use crate::quote::rows::{Row, are, is, refuses};
use std::test::Fail;
use upon_fmt::fmt::{Format, Formatter};
use upon_quote::shell::Shell;
use upon_types::value::Value;

// POSIX.1-2017, Shell Command Language, section 2.2.2: all but `'` is itself between single quotes.
const ROWS: &[Row] = &[
    ("", "''"),
    ("Ann", "'Ann'"),
    ("a b\tc\n", "'a b\tc\n'"),
    (
        "$(rm -rf ~) `id` \"$HOME\" \\",
        "'$(rm -rf ~) `id` \"$HOME\" \\'",
    ),
    ("; & | < > * ? [ # ~ = %", "'; & | < > * ? [ # ~ = %'"),
    ("'", "''\\'''"),
    ("''", "''\\'''\\'''"),
    ("it's", "'it'\\''s'"),
    ("'; reboot; '", "''\\''; reboot; '\\'''"),
    ("\\'", "'\\'\\'''"),
    ("\u{1}\u{7f}\u{85}\u{2028}", "'\u{1}\u{7f}\u{85}\u{2028}'"),
    ("\u{e9}'\u{65e5}\u{1f600}", "'\u{e9}'\\''\u{65e5}\u{1f600}'"),
];

// Texts with U+0000.
const REFUSED: &[Row] = &[
    ("\0", "[a shell word cannot hold U+0000]"),
    ("a\0", "[a shell word cannot hold U+0000]"),
    ("'\0'", "[a shell word cannot hold U+0000]"),
    ("\u{1f600}\0b", "[a shell word cannot hold U+0000]"),
];

#[test]
fn texts(rt: HostRuntime) -> Result<(), Fail> {
    Ok(are(&rt, rt.alloc(), &Shell, ROWS)?)
}

#[test]
fn refused_texts(rt: HostRuntime) -> Result<(), Fail> {
    Ok(are(&rt, rt.alloc(), &Shell, REFUSED)?)
}

#[test]
fn a_refused_text_writes_nothing(rt: HostRuntime) -> Result<(), Fail> {
    let alloc = rt.alloc();
    let mut f = Formatter::new(alloc);
    f.write_str("echo ")?;
    assert!(rt;
        Shell
            .format(&mut f, &Value::from_text(alloc, "a\0")?)
            .is_err()
    );
    let text = f.into_text().ok_or("no text")?;
    assert_eq!(rt; text.as_str(), "echo ");
    Ok(())
}

#[test]
fn other_values(rt: HostRuntime) -> Result<(), Fail> {
    let alloc = rt.alloc();
    is(&rt, alloc, &Shell, &Value::None, "''")?;
    is(&rt, alloc, &Shell, &Value::Bool(true), "'true'")?;
    is(&rt, alloc, &Shell, &Value::Bool(false), "'false'")?;
    is(&rt, alloc, &Shell, &Value::Integer(-10), "'-10'")?;
    Ok(refuses(&rt, alloc, &Shell)?)
}
