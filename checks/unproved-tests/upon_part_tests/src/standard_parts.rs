// Functions that take lists and texts apart or put them together, at empty ones, at bounds and at characters of several
// bytes.
use crate::functions::reports::{CallReport, report};
use crate::standard::{fault, integer, list, text};
use std::alloc::{AllocError, Global};
use std::process::Abort;
use std::test::Fail;
use upon_functions::function::Function;
use upon_std::cutting::parts::ALL;
use upon_types::value::{Value, ValueCow};

// What the function with this name answers.
fn answer(alloc: Global, name: &str, args: &[ValueCow]) -> Option<CallReport> {
    for function in ALL {
        if function.name() == name {
            return Some(report(function.call(alloc, args)));
        }
    }
    None
}

fn list_of(alloc: Global, numbers: &[i64]) -> Result<ValueCow<'static>, AllocError> {
    Ok(ValueCow::Owned(list(alloc, numbers)?))
}

fn texts(alloc: Global, given: &[&str]) -> Result<Value, AllocError> {
    let mut items = Vec::new(alloc);
    for item in given {
        items.push(Value::from_text(alloc, item)?)?;
    }
    Ok(Value::List(items))
}

// A map with this at the key `k`.
fn map(alloc: Global, value: Value) -> Result<Value, AllocError> {
    Value::from_pairs(alloc, [(String::from_str(alloc, "k")?, value)])
}

// Four items: two with a value at `k`, one without the key, and one that is no map.
fn mixed(alloc: Global) -> Result<Value, AllocError> {
    let other = Value::from_pairs(alloc, [(String::from_str(alloc, "l")?, Value::Integer(1))])?;
    let one = map(alloc, Value::Integer(1))?;
    let named = map(alloc, Value::from_text(alloc, "a")?)?;
    Value::from_array(alloc, [one, other, named, Value::Integer(1)])
}

// The names of all, in their order.
const NAMES: [&str; 10] = [
    "range", "slice", "concat", "pluck", "where", "sum", "split", "lines", "replace", "indent",
];

#[test]
fn names_of_parts(rt: HostRuntime) -> Result<(), Fail> {
    for (function, name) in ALL.iter().zip(NAMES) {
        assert!(rt; function.name() == name);
    }
    assert!(rt; ALL.len() == 10);
    Ok(())
}

#[test]
fn ranges(rt: HostRuntime) -> Result<(), Fail> {
    let alloc = rt.alloc();
    let wanted: [&[i64]; 6] = [&[], &[], &[2, 3, 4], &[-1, 0], &[i64::MIN], &[]];
    let bounds = [
        (0, 0),
        (5, 2),
        (2, 5),
        (-1, 1),
        (i64::MIN, i64::MIN + 1),
        (i64::MAX, i64::MIN),
    ];
    for ((from, to), numbers) in bounds.iter().zip(wanted) {
        let answered = answer(alloc, "range", &[integer(*from), integer(*to)]);
        assert!(rt; answered == Some(CallReport::Value(list(alloc, numbers)?)));
    }
    for (from, to) in [
        (0, 1_000_001),
        (-1, 1_000_000),
        (i64::MIN, i64::MAX),
        (-2, i64::MAX),
    ] {
        let answered = answer(alloc, "range", &[integer(from), integer(to)]);
        assert!(rt; answered == fault(alloc, "range has more than 1000000 items")?);
    }
    let count = match &answer(alloc, "range", &[integer(-1), integer(999_999)]) {
        Some(CallReport::Value(Value::List(all))) => all.len(),
        _ => 0,
    };
    assert!(rt; count == 1_000_000);
    let wrong = answer(alloc, "range", &[integer(1), text(alloc, "")?]);
    assert!(rt; wrong == Some(CallReport::WrongType(1, "i64")));
    Ok(())
}

#[test]
fn slices(rt: HostRuntime) -> Result<(), Fail> {
    let alloc = rt.alloc();
    let wanted: [&[i64]; 8] = [&[4, 5, 6], &[4, 5, 6], &[5], &[6], &[], &[], &[], &[]];
    let bounds = [
        (0, 3),
        (0, i64::MAX),
        (1, 2),
        (2, 9),
        (3, 9),
        (2, 2),
        (2, 1),
        (i64::MAX, i64::MAX),
    ];
    for ((from, to), numbers) in bounds.iter().zip(wanted) {
        let args = [list_of(alloc, &[4, 5, 6])?, integer(*from), integer(*to)];
        let answered = answer(alloc, "slice", &args);
        assert!(rt; answered == Some(CallReport::Value(list(alloc, numbers)?)));
    }
    let empty = answer(
        alloc,
        "slice",
        &[list_of(alloc, &[])?, integer(0), integer(1)],
    );
    assert!(rt; empty == Some(CallReport::Value(list(alloc, &[])?)));
    let wrong = answer(
        alloc,
        "slice",
        &[list_of(alloc, &[4])?, integer(0), integer(-1)],
    );
    assert!(rt; wrong == Some(CallReport::OutOfRange(2, "usize")));
    let wrong = answer(
        alloc,
        "slice",
        &[text(alloc, "a")?, integer(-1), integer(1)],
    );
    assert!(rt; wrong == Some(CallReport::WrongType(0, "list")));
    let wrong = answer(alloc, "slice", &[list_of(alloc, &[4])?, integer(0)]);
    assert!(rt; wrong == Some(CallReport::Arity(3)));
    Ok(())
}

#[test]
fn concatenations(rt: HostRuntime) -> Result<(), Fail> {
    let alloc = rt.alloc();
    let firsts: [&[i64]; 4] = [&[], &[4], &[], &[4, 5]];
    let seconds: [&[i64]; 4] = [&[], &[], &[6], &[6, 4]];
    let wanted: [&[i64]; 4] = [&[], &[4], &[6], &[4, 5, 6, 4]];
    for ((first, second), numbers) in firsts.iter().zip(seconds).zip(wanted) {
        let answered = answer(
            alloc,
            "concat",
            &[list_of(alloc, first)?, list_of(alloc, second)?],
        );
        assert!(rt; answered == Some(CallReport::Value(list(alloc, numbers)?)));
    }
    let wrong = answer(alloc, "concat", &[list_of(alloc, &[4])?, integer(4)]);
    assert!(rt; wrong == Some(CallReport::WrongType(1, "list")));
    Ok(())
}

#[test]
fn plucked(rt: HostRuntime) -> Result<(), Fail> {
    let alloc = rt.alloc();
    let wanted = Value::from_array(
        alloc,
        [
            Value::Integer(1),
            Value::None,
            Value::from_text(alloc, "a")?,
            Value::None,
        ],
    )?;
    let args = [ValueCow::Owned(mixed(alloc)?), text(alloc, "k")?];
    assert!(rt; answer(alloc, "pluck", &args) == Some(CallReport::Value(wanted)));
    let empty = answer(alloc, "pluck", &[list_of(alloc, &[])?, text(alloc, "k")?]);
    assert!(rt; empty == Some(CallReport::Value(list(alloc, &[])?)));
    let wrong = answer(alloc, "pluck", &[list_of(alloc, &[])?, integer(1)]);
    assert!(rt; wrong == Some(CallReport::WrongType(1, "&str")));
    Ok(())
}

#[test]
fn those_that_have(rt: HostRuntime) -> Result<(), Fail> {
    let alloc = rt.alloc();
    let one = Value::from_array(alloc, [map(alloc, Value::Integer(1))?])?;
    let args = [
        ValueCow::Owned(mixed(alloc)?),
        text(alloc, "k")?,
        integer(1),
    ];
    assert!(rt; answer(alloc, "where", &args) == Some(CallReport::Value(one)));
    let args = [
        ValueCow::Owned(mixed(alloc)?),
        text(alloc, "k")?,
        integer(2),
    ];
    assert!(rt; answer(alloc, "where", &args) == Some(CallReport::Value(list(alloc, &[])?)));
    let other = Value::from_pairs(alloc, [(String::from_str(alloc, "l")?, Value::Integer(1))])?;
    let without = Value::from_array(alloc, [other, Value::Integer(1)])?;
    let none = ValueCow::Owned(Value::None);
    let args = [ValueCow::Owned(mixed(alloc)?), text(alloc, "k")?, none];
    assert!(rt; answer(alloc, "where", &args) == Some(CallReport::Value(without)));
    let wrong = answer(alloc, "where", &[integer(1), text(alloc, "k")?, integer(1)]);
    assert!(rt; wrong == Some(CallReport::WrongType(0, "list")));
    Ok(())
}

#[test]
fn sums(rt: HostRuntime) -> Result<(), Fail> {
    let alloc = rt.alloc();
    let given: [&[i64]; 4] = [&[], &[4], &[4, -9, 2], &[i64::MAX, -1, i64::MIN, 1]];
    for (numbers, wanted) in given.iter().zip([0, 4, -3, -1]) {
        let answered = answer(alloc, "sum", &[list_of(alloc, numbers)?]);
        assert!(rt; answered == Some(CallReport::Value(Value::Integer(wanted))));
    }
    let given: [&[i64]; 3] = [&[i64::MAX, 1], &[i64::MAX, 1, -1], &[i64::MIN, -1]];
    for numbers in given {
        let answered = answer(alloc, "sum", &[list_of(alloc, numbers)?]);
        assert!(rt; answered == fault(alloc, "integer overflow")?);
    }
    let word = Value::from_text(alloc, "a")?;
    let late = Value::from_array(alloc, [Value::Integer(i64::MAX), Value::Integer(1), word])?;
    let answered = answer(alloc, "sum", &[ValueCow::Owned(late)]);
    assert!(rt; answered == fault(alloc, "integer overflow")?);
    let word = Value::from_text(alloc, "a")?;
    let early = Value::from_array(
        alloc,
        [
            Value::Integer(i64::MAX),
            word,
            Value::Integer(1),
            Value::None,
        ],
    )?;
    let answered = answer(alloc, "sum", &[ValueCow::Owned(early)]);
    assert!(rt; answered == fault(alloc, "cannot add string")?);
    Ok(())
}

#[test]
fn splits(rt: HostRuntime) -> Result<(), Fail> {
    let alloc = rt.alloc();
    let wanted: [&[&str]; 8] = [
        &[""],
        &["abc"],
        &["a", "b", "", "c"],
        &["", ""],
        &["", "a"],
        &["x", "\u{e4}"],
        &["\u{1f600}", "b"],
        &["ab"],
    ];
    let given = [
        ("", ","),
        ("abc", ","),
        ("a,b,,c", ","),
        (",", ","),
        ("aaa", "aa"),
        ("x\u{1f600}\u{e4}", "\u{1f600}"),
        ("\u{1f600}, b", ", "),
        ("ab", "abc"),
    ];
    for ((whole, separator), parts) in given.iter().zip(wanted) {
        let answered = answer(
            alloc,
            "split",
            &[text(alloc, whole)?, text(alloc, separator)?],
        );
        assert!(rt; answered == Some(CallReport::Value(texts(alloc, parts)?)));
    }
    for whole in ["", "abc"] {
        let answered = answer(alloc, "split", &[text(alloc, whole)?, text(alloc, "")?]);
        assert!(rt; answered == fault(alloc, "split needs a separator")?);
    }
    Ok(())
}

#[test]
fn lines_of_texts(rt: HostRuntime) -> Result<(), Fail> {
    let alloc = rt.alloc();
    let wanted: [&[&str]; 7] = [
        &[],
        &["a"],
        &["a"],
        &["a", "", "b"],
        &[""],
        &["a", "b\r"],
        &["\u{1f600}", "\u{e4}"],
    ];
    let given = [
        "",
        "a",
        "a\n",
        "a\n\nb",
        "\n",
        "a\r\nb\r",
        "\u{1f600}\r\n\u{e4}\r\n",
    ];
    for (whole, lines) in given.iter().zip(wanted) {
        let answered = answer(alloc, "lines", &[text(alloc, whole)?]);
        assert!(rt; answered == Some(CallReport::Value(texts(alloc, lines)?)));
    }
    let wrong = answer(alloc, "lines", &[integer(1)]);
    assert!(rt; wrong == Some(CallReport::WrongType(0, "&str")));
    Ok(())
}

#[test]
fn replacements(rt: HostRuntime) -> Result<(), Fail> {
    let alloc = rt.alloc();
    for (whole, from, to, wanted) in [
        ("", "a", "b", ""),
        ("abc", "d", "e", "abc"),
        ("abcb", "b", "", "ac"),
        ("aaa", "aa", "b", "ba"),
        ("aa", "a", "aa", "aaaa"),
        ("x\u{1f600}y", "\u{1f600}", "\u{e4}", "x\u{e4}y"),
    ] {
        let args = [text(alloc, whole)?, text(alloc, from)?, text(alloc, to)?];
        let answered = answer(alloc, "replace", &args);
        assert!(rt; answered == Some(CallReport::Value(Value::from_text(alloc, wanted)?)));
    }
    let args = [text(alloc, "a")?, text(alloc, "")?, text(alloc, "b")?];
    let answered = answer(alloc, "replace", &args);
    assert!(rt; answered == fault(alloc, "replace needs a text to replace")?);
    let thousand = String::from_str(alloc, "b")?.repeat(alloc, 1000)?;
    for (times, fits) in [(1000, true), (1001, false)] {
        let whole = String::from_str(alloc, "a")?.repeat(alloc, times)?;
        let args = [
            text(alloc, &whole)?,
            text(alloc, "a")?,
            text(alloc, &thousand)?,
        ];
        let answered = answer(alloc, "replace", &args);
        let refused = fault(alloc, "replace makes more than 1000000 bytes")?;
        assert!(rt; (answered != refused) == fits);
    }
    Ok(())
}

#[test]
fn indentations(rt: HostRuntime) -> Result<(), Fail> {
    let alloc = rt.alloc();
    for (whole, width, wanted) in [
        ("", 2, ""),
        ("a", i64::MAX, "a"),
        ("a\n", i64::MAX, "a\n"),
        ("a\nb", 2, "a\n  b"),
        ("a\n\nb\n", 1, "a\n\n b\n"),
        ("\nb", 3, "\n   b"),
        ("a\nb", 0, "a\nb"),
        ("\u{1f600}\n\u{e4}", 1, "\u{1f600}\n \u{e4}"),
    ] {
        let answered = answer(alloc, "indent", &[text(alloc, whole)?, integer(width)]);
        assert!(rt; answered == Some(CallReport::Value(Value::from_text(alloc, wanted)?)));
    }
    for (width, fits) in [(999_997, true), (999_998, false), (i64::MAX, false)] {
        let answered = answer(alloc, "indent", &[text(alloc, "a\nb")?, integer(width)]);
        let refused = fault(alloc, "indent makes more than 1000000 bytes")?;
        assert!(rt; (answered != refused) == fits);
    }
    let wrong = answer(alloc, "indent", &[text(alloc, "a")?, integer(-1)]);
    assert!(rt; wrong == Some(CallReport::OutOfRange(1, "usize")));
    Ok(())
}
