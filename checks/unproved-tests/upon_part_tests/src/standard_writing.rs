// Functions that write values for other readers: what each answers, and what it refuses.
use crate::functions::reports::{CallReport, report};
use crate::standard::{fault, integer, list, text};
use std::alloc::{AllocError, Global};
use std::borrow::CowStr;
use std::collections::BTreeMap;
use std::process::Abort;
use std::test::Fail;
use upon::{Engine, value};
use upon_functions::function::Function;
use upon_std::encoding::writing::{ALL, Writing};
use upon_types::value::{Value, ValueCow};

// The names of all, in their order.
const NAMES: [&str; 9] = [
    "json",
    "shell",
    "yaml",
    "url",
    "base64",
    "truncate",
    "pad_left",
    "pad_right",
    "center",
];

fn answer(alloc: Global, function: Writing, args: &[ValueCow]) -> Option<CallReport> {
    Some(report(function.call(alloc, args)))
}

fn given(alloc: Global, wanted: &str) -> Result<Option<CallReport>, AllocError> {
    Ok(Some(CallReport::Value(Value::from_text(alloc, wanted)?)))
}

// A map whose entry has a map, and whose keys were not put in their order.
fn nested(alloc: Global) -> Result<Value, AllocError> {
    let mut inner = BTreeMap::new(alloc);
    drop(inner.insert(String::from_str(alloc, "c\"")?, Value::None)?);
    drop(inner.insert(String::from_str(alloc, "")?, list(alloc, &[1, -2])?)?);
    let mut outer = BTreeMap::new(alloc);
    drop(outer.insert(String::from_str(alloc, "b")?, Value::Map(inner))?);
    drop(outer.insert(String::from_str(alloc, "a")?, list(alloc, &[])?)?);
    Ok(Value::Map(outer))
}

#[test]
fn names(rt: HostRuntime) -> Result<(), Fail> {
    for (function, name) in ALL.iter().zip(NAMES) {
        assert!(rt; function.name() == name);
    }
    assert!(rt; ALL.len() == 9);
    Ok(())
}

#[test]
fn json_of_one(rt: HostRuntime) -> Result<(), Fail> {
    let alloc = rt.alloc();
    for (value, wanted) in [
        (Value::None, "null"),
        (Value::Bool(true), "true"),
        (Value::Bool(false), "false"),
        (Value::Integer(0), "0"),
        (Value::Integer(-1), "-1"),
        (Value::Integer(i64::MAX), "9223372036854775807"),
        (Value::Integer(i64::MIN), "-9223372036854775808"),
        (Value::from_text(alloc, "")?, "\"\""),
        (Value::from_text(alloc, "a\"b\\/")?, "\"a\\\"b\\\\/\""),
        (Value::from_text(alloc, "\0\u{1f}\n\t\u{7f}")?, "\"\\u0000\\u001f\\n\\t\u{7f}\""),
        (Value::from_text(alloc, "\u{1f600}\u{2028}\u{e4}")?, "\"\u{1f600}\\u2028\u{e4}\""),
    ] {
        let answered = answer(alloc, Writing::Json, &[ValueCow::Owned(value)]);
        assert!(rt; answered == given(alloc, wanted)?);
    }
    assert!(rt; answer(alloc, Writing::Json, &[]) == Some(CallReport::Arity(1)));
    Ok(())
}

#[test]
fn json_of_many(rt: HostRuntime) -> Result<(), Fail> {
    let alloc = rt.alloc();
    for (value, wanted) in [
        (list(alloc, &[])?, "[]"),
        (list(alloc, &[7])?, "[7]"),
        (list(alloc, &[1, 2, 3])?, "[1,2,3]"),
        (Value::Map(BTreeMap::new(alloc)), "{}"),
        (nested(alloc)?, "{\"a\":[],\"b\":{\"\":[1,-2],\"c\\\"\":null}}"),
    ] {
        let answered = answer(alloc, Writing::Json, &[ValueCow::Owned(value)]);
        assert!(rt; answered == given(alloc, wanted)?);
    }
    Ok(())
}

#[test]
fn tokens(rt: HostRuntime) -> Result<(), Fail> {
    let alloc = rt.alloc();
    for (function, whole, wanted) in [
        (Writing::Shell, "", "''"),
        (Writing::Shell, "it's $x\n", "'it'\\''s $x\n'"),
        (Writing::Shell, "\u{1f600}", "'\u{1f600}'"),
        (Writing::Yaml, "", ""),
        (Writing::Yaml, "a: \"b\"\\\n", "a: \\\"b\\\"\\\\\\n"),
        (Writing::Yaml, "\0\u{7}\u{a0}\u{feff}\u{1f600}", "\\0\\x07\\xa0\\ufeff\u{1f600}"),
    ] {
        let answered = answer(alloc, function, &[text(alloc, whole)?]);
        assert!(rt; answered == given(alloc, wanted)?);
    }
    let refused = answer(alloc, Writing::Shell, &[text(alloc, "a\0b")?]);
    assert!(rt; refused == fault(alloc, "a shell word cannot hold U+0000")?);
    for function in [Writing::Shell, Writing::Yaml] {
        let wrong = answer(alloc, function, &[integer(1)]);
        assert!(rt; wrong == Some(CallReport::WrongType(0, "string")));
    }
    Ok(())
}

#[test]
fn encodings(rt: HostRuntime) -> Result<(), Fail> {
    let alloc = rt.alloc();
    for (function, whole, wanted) in [
        (Writing::Url, "", ""),
        (Writing::Url, "azAZ09-._~", "azAZ09-._~"),
        (Writing::Url, " /?&=%+", "%20%2F%3F%26%3D%25%2B"),
        (Writing::Url, "\0\u{7f}@[`{", "%00%7F%40%5B%60%7B"),
        (Writing::Url, "\u{e4}\u{20ac}\u{1f600}", "%C3%A4%E2%82%AC%F0%9F%98%80"),
        (Writing::Base64, "", ""),
        (Writing::Base64, "f", "Zg=="),
        (Writing::Base64, "fo", "Zm8="),
        (Writing::Base64, "foo", "Zm9v"),
        (Writing::Base64, "foob", "Zm9vYg=="),
        (Writing::Base64, "fooba", "Zm9vYmE="),
        (Writing::Base64, "foobar", "Zm9vYmFy"),
        (Writing::Base64, "\u{1f600}?>", "8J+YgD8+"),
    ] {
        let answered = answer(alloc, function, &[text(alloc, whole)?]);
        assert!(rt; answered == given(alloc, wanted)?);
    }
    for function in [Writing::Url, Writing::Base64] {
        let wrong = answer(alloc, function, &[integer(1)]);
        assert!(rt; wrong == Some(CallReport::WrongType(0, "&str")));
    }
    Ok(())
}

#[test]
fn truncated(rt: HostRuntime) -> Result<(), Fail> {
    let alloc = rt.alloc();
    for (whole, columns, wanted) in [
        ("", 0, ""),
        ("", 1, ""),
        ("abc", 3, "abc"),
        ("abc", i64::MAX, "abc"),
        ("abcd", 3, "ab\u{2026}"),
        ("abc", 1, "\u{2026}"),
        ("abc", 0, ""),
        ("\u{65e5}\u{672c}", 4, "\u{65e5}\u{672c}"),
        ("\u{65e5}\u{672c}", 3, "\u{65e5}\u{2026}"),
        ("\u{65e5}\u{672c}", 2, "\u{2026}"),
        ("\u{1f600}\u{1f600}\u{1f600}", 5, "\u{1f600}\u{1f600}\u{2026}"),
        ("e\u{301}a", 2, "e\u{301}a"),
        ("e\u{301}ab", 2, "e\u{301}\u{2026}"),
        ("\u{301}", 0, "\u{301}"),
        ("a\nb\0", 2, "a\nb\0"),
    ] {
        let answered = answer(alloc, Writing::Truncate, &[text(alloc, whole)?, integer(columns)]);
        assert!(rt; answered == given(alloc, wanted)?);
    }
    let below = answer(alloc, Writing::Truncate, &[text(alloc, "a")?, integer(-1)]);
    assert!(rt; below == Some(CallReport::OutOfRange(1, "usize")));
    Ok(())
}

#[test]
fn padded(rt: HostRuntime) -> Result<(), Fail> {
    let alloc = rt.alloc();
    for (function, whole, columns, wanted) in [
        (Writing::PadLeft, "", 0, ""),
        (Writing::PadLeft, "", 3, "   "),
        (Writing::PadLeft, "ab", 5, "   ab"),
        (Writing::PadLeft, "ab", 2, "ab"),
        (Writing::PadLeft, "abc", 2, "abc"),
        (Writing::PadLeft, "\u{1f600}", 3, " \u{1f600}"),
        (Writing::PadRight, "", 1, " "),
        (Writing::PadRight, "ab", 5, "ab   "),
        (Writing::PadRight, "abc", 2, "abc"),
        (Writing::PadRight, "e\u{301}\n", 2, "e\u{301}\n "),
        (Writing::Center, "", 1, " "),
        (Writing::Center, "ab", 4, " ab "),
        (Writing::Center, "ab", 5, " ab  "),
        (Writing::Center, "abc", 2, "abc"),
        (Writing::Center, "\u{65e5}", 5, " \u{65e5}  "),
    ] {
        let answered = answer(alloc, function, &[text(alloc, whole)?, integer(columns)]);
        assert!(rt; answered == given(alloc, wanted)?);
    }
    Ok(())
}

#[test]
fn most_columns(rt: HostRuntime) -> Result<(), Fail> {
    let alloc = rt.alloc();
    let blanks = " ".repeat(alloc, 10_000)?;
    for function in [Writing::PadLeft, Writing::PadRight, Writing::Center] {
        let most = answer(alloc, function, &[text(alloc, "")?, integer(10_000)]);
        assert!(rt; most == given(alloc, blanks.as_str())?);
        for columns in [10_001, i64::MAX] {
            let more = answer(alloc, function, &[text(alloc, "")?, integer(columns)]);
            assert!(rt; more == fault(alloc, "pad takes at most 10000 columns")?);
        }
        let below = answer(alloc, function, &[text(alloc, "")?, integer(-1)]);
        assert!(rt; below == Some(CallReport::OutOfRange(1, "usize")));
    }
    Ok(())
}

fn rendered(alloc: Global) -> upon::Result<String> {
    let mut engine = Engine::new(alloc);
    for function in ALL.as_slice() {
        engine.add_function(CowStr::Borrowed(function.name()), Box::new(alloc, *function)?)?;
    }
    let context = value! { in alloc; row: {name: "Earl Grey", tags: ["a b"]} }?;
    let source = "|{{ row.name | truncate: 6 | pad_right: 8 }}|{{ pad_left(\"7\", 3) }}|{{ center(\"x\", 4) }}|\n\
        {{ row | json }} {{ url(\"a b\") }} {{ shell(\"a b\") }} \"{{ \"\t\" | yaml }}\" {{ base64(\"a b\") }}\n";
    engine.render_text(source, &context)
}

#[test]
fn called(rt: HostRuntime) -> Result<(), Fail> {
    let wanted = "|Earl \u{2026}  |  7| x  |\n\
        {\"name\":\"Earl Grey\",\"tags\":[\"a b\"]} a%20b 'a b' \"\\t\" YSBi\n";
    assert_eq!(&rt; rendered(rt.alloc())?.as_str(), wanted);
    Ok(())
}
