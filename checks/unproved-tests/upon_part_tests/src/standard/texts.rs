// Functions of texts, at empty texts, at characters of several bytes and at the bound of `repeat`.
use super::{answer, fault, integer, text};
use crate::functions::reports::CallReport;
use std::process::Abort;
use std::test::Fail;
use upon_types::value::Value;

#[test]
fn changed(rt: HostRuntime) -> Result<(), Fail> {
    let alloc = rt.alloc();
    for (name, given, wanted) in [
        ("trim", "", ""),
        ("trim", " \t\u{a0}\u{3000}a b\u{2028}\n", "a b"),
        ("trim", "\u{1f600}", "\u{1f600}"),
        ("lower", "AB\u{c4}\u{1f600}", "ab\u{e4}\u{1f600}"),
        ("upper", "ab\u{e4}\u{df}", "AB\u{c4}SS"),
    ] {
        let answered = answer(alloc, name, &[text(alloc, given)?]);
        assert!(rt; answered == Some(CallReport::Value(Value::from_text(alloc, wanted)?)));
    }
    let wrong = answer(alloc, "trim", &[integer(1)]);
    assert!(rt; wrong == Some(CallReport::WrongType(0, "&str")));
    Ok(())
}

#[test]
fn tested(rt: HostRuntime) -> Result<(), Fail> {
    let alloc = rt.alloc();
    for (name, whole, part, wanted) in [
        ("starts_with", "", "", true),
        ("starts_with", "abc", "ab", true),
        ("starts_with", "abc", "b", false),
        ("starts_with", "ab", "abc", false),
        ("ends_with", "abc", "bc", true),
        ("ends_with", "abc", "b", false),
        ("ends_with", "c", "bc", false),
        ("contains", "abc", "b", true),
        ("contains", "a\u{1f600}", "\u{1f600}", true),
        ("contains", "abc", "", true),
        ("contains", "abc", "cb", false),
        ("contains", "", "a", false),
    ] {
        let answered = answer(alloc, name, &[text(alloc, whole)?, text(alloc, part)?]);
        assert!(rt; answered == Some(CallReport::Value(Value::Bool(wanted))));
    }
    Ok(())
}

#[test]
fn repeated(rt: HostRuntime) -> Result<(), Fail> {
    let alloc = rt.alloc();
    for (given, times, wanted) in [
        ("ab", 0, ""),
        ("ab", 1, "ab"),
        ("\u{e4}b", 3, "\u{e4}b\u{e4}b\u{e4}b"),
        ("", i64::MAX, ""),
    ] {
        let answered = answer(alloc, "repeat", &[text(alloc, given)?, integer(times)]);
        assert!(rt; answered == Some(CallReport::Value(Value::from_text(alloc, wanted)?)));
    }
    for times in [500_001, i64::MAX] {
        let answered = answer(alloc, "repeat", &[text(alloc, "ab")?, integer(times)]);
        assert!(rt; answered == fault(alloc, "repeat makes more than 1000000 bytes")?);
    }
    let wrong = answer(alloc, "repeat", &[text(alloc, "ab")?, integer(-1)]);
    assert!(rt; wrong == Some(CallReport::OutOfRange(1, "usize")));
    Ok(())
}
