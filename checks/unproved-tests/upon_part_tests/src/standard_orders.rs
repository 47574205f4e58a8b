// Functions that order, thin out and group the items of lists: rows of calls, with what each answers. Arguments and
// values are written as JSON.
use crate::functions::reports::{CallReport, report};
use std::alloc::{AllocError, Global};
use std::process::Abort;
use std::test::Fail;
use upon_functions::function::Function;
use upon_json::context::context;
use upon_std::ordering::orders::{ALL, Orders};
use upon_types::value::{Value, ValueCow, look};

// What a function answers to the arguments that are the items of this list.
fn answer(
    alloc: Global,
    function: Orders,
    arguments: &str,
) -> Result<Option<CallReport>, AllocError> {
    let Ok(context) = context(alloc, Some(arguments), &[]) else {
        return Ok(None);
    };
    let Some(Value::List(items)) = look::entry(&context, "items") else {
        return Ok(None);
    };
    let mut args = Vec::new(alloc);
    for item in items {
        args.push(ValueCow::Owned(item.try_clone()?))?;
    }
    Ok(Some(report(function.call(alloc, &args))))
}

// The value that a text of JSON is.
fn value(alloc: Global, text: &str) -> Result<Option<Value>, AllocError> {
    let list = format!(in alloc; "[{text}]")?;
    let Ok(context) = context(alloc, Some(&list), &[]) else {
        return Ok(None);
    };
    match look::entry(&context, "items") {
        Some(Value::List(items)) => match items.first() {
            Some(item) => Ok(Some(item.try_clone()?)),
            None => Ok(None),
        },
        _ => Ok(None),
    }
}

// Each row's arguments give the value beside them.
fn gives(alloc: Global, function: Orders, rows: &[(&str, &str)]) -> Result<bool, AllocError> {
    for (arguments, wanted) in rows {
        let Some(wanted) = value(alloc, wanted)? else {
            return Ok(false);
        };
        if answer(alloc, function, arguments)? != Some(CallReport::Value(wanted)) {
            return Ok(false);
        }
    }
    Ok(true)
}

// Each row's arguments are refused with the message beside them.
fn refuses(alloc: Global, function: Orders, rows: &[(&str, &str)]) -> Result<bool, AllocError> {
    for (arguments, message) in rows {
        let wanted = CallReport::Fault(String::from_str(alloc, message)?);
        if answer(alloc, function, arguments)? != Some(wanted) {
            return Ok(false);
        }
    }
    Ok(true)
}

#[test]
fn sorted(rt: HostRuntime) -> Result<(), Fail> {
    let rows = [
        ("[[]]", "[]"),
        ("[[null]]", "[null]"),
        ("[[[2, 1]]]", "[[2, 1]]"),
        ("[[3, 1, 2]]", "[1, 2, 3]"),
        ("[[2, 1, 2, 1]]", "[1, 1, 2, 2]"),
        (
            "[[0, 9223372036854775807, -1, -9223372036854775808]]",
            "[-9223372036854775808, -1, 0, 9223372036854775807]",
        ),
        (
            r#"[["b", "a", "", "B", "ab"]]"#,
            r#"["", "B", "a", "ab", "b"]"#,
        ),
        (
            "[[\"\u{1f600}\", \"\u{ffff}\", \"\u{e4}\", \"z\"]]",
            "[\"z\", \"\u{e4}\", \"\u{ffff}\", \"\u{1f600}\"]",
        ),
    ];
    assert!(rt; gives(rt.alloc(), Orders::Sort, &rows)?);
    let rows = [
        (r#"[[1, "a"]]"#, "cannot compare integer with string"),
        (
            r#"[["a", "b", null, 1]]"#,
            "cannot compare string with none",
        ),
        ("[[[1], [2]]]", "cannot compare list with list"),
        ("[[true, false]]", "cannot compare bool with bool"),
        ("[[{}, 1, {}]]", "cannot compare map with integer"),
    ];
    assert!(rt; refuses(rt.alloc(), Orders::Sort, &rows)?);
    Ok(())
}

#[test]
fn sorted_by_a_key(rt: HostRuntime) -> Result<(), Fail> {
    let rows = [
        (r#"[[], "k"]"#, "[]"),
        (r#"[[{}], "k"]"#, "[{}]"),
        (r#"[[4], "k"]"#, "[4]"),
        (
            r#"[[{"k": 1, "n": 1}, {"k": 0, "n": 2}, {"k": 1, "n": 3}, {"k": 0, "n": 4}], "k"]"#,
            r#"[{"k": 0, "n": 2}, {"k": 0, "n": 4}, {"k": 1, "n": 1}, {"k": 1, "n": 3}]"#,
        ),
        (
            r#"[[{"": "b"}, {"": "a"}], ""]"#,
            r#"[{"": "a"}, {"": "b"}]"#,
        ),
    ];
    assert!(rt; gives(rt.alloc(), Orders::SortBy, &rows)?);
    let rows = [
        (
            r#"[[{"k": 1}, {}], "k"]"#,
            "cannot compare integer with none",
        ),
        (
            r#"[[1, {"k": 1}], "k"]"#,
            "cannot compare none with integer",
        ),
        (r#"[[{}, {}], "k"]"#, "cannot compare none with none"),
        (
            r#"[[{"k": "a"}, {"k": "b"}, {"k": [1]}], "k"]"#,
            "cannot compare string with list",
        ),
    ];
    assert!(rt; refuses(rt.alloc(), Orders::SortBy, &rows)?);
    Ok(())
}

#[test]
fn without_repeats(rt: HostRuntime) -> Result<(), Fail> {
    let rows = [
        ("[[]]", "[]"),
        ("[[7]]", "[7]"),
        ("[[2, 1, 2, 3, 1]]", "[2, 1, 3]"),
        (
            r#"[[null, 0, false, "", "0", [], {}, -1, true, 1, null, 0, false, "", "0", [], {}]]"#,
            r#"[null, 0, false, "", "0", [], {}, -1, true, 1]"#,
        ),
        (
            r#"[["ab", ["a", "b"], ["ab"], [["a"], "b"], ["a", ["b"]], ["a", "b"]]]"#,
            r#"["ab", ["a", "b"], ["ab"], [["a"], "b"], ["a", ["b"]]]"#,
        ),
        (
            r#"[[{"a": 1, "b": 2}, {"b": 2, "a": 1}, {"a": 1}, {"ab": 2}, {"a": {"b": 2}}]]"#,
            r#"[{"a": 1, "b": 2}, {"a": 1}, {"ab": 2}, {"a": {"b": 2}}]"#,
        ),
        (
            "[[\"\u{1f600}\", \"\u{1f601}\", \"\u{1f600}\"]]",
            "[\"\u{1f600}\", \"\u{1f601}\"]",
        ),
        (
            "[[-9223372036854775808, 9223372036854775807, -9223372036854775808]]",
            "[-9223372036854775808, 9223372036854775807]",
        ),
    ];
    assert!(rt; gives(rt.alloc(), Orders::Unique, &rows)?);
    Ok(())
}

#[test]
fn in_groups(rt: HostRuntime) -> Result<(), Fail> {
    let rows = [
        (r#"[[], "k"]"#, "[]"),
        (
            r#"[[{"k": 2}], "k"]"#,
            r#"[{"key": 2, "items": [{"k": 2}]}]"#,
        ),
        (
            r#"[[{"k": "y", "n": 1}, {"k": "x"}, 4, {"k": "y", "n": 2}, {}, {"k": null}], "k"]"#,
            r#"[{"key": "y", "items": [{"k": "y", "n": 1}, {"k": "y", "n": 2}]},
                {"key": "x", "items": [{"k": "x"}]},
                {"key": null, "items": [4, {}, {"k": null}]}]"#,
        ),
        (
            "[[{\"\u{1f600}\": [1]}, {\"\u{1f600}\": [2]}, {\"\u{1f600}\": [1]}], \"\u{1f600}\"]",
            "[{\"key\": [1], \"items\": [{\"\u{1f600}\": [1]}, {\"\u{1f600}\": [1]}]},
              {\"key\": [2], \"items\": [{\"\u{1f600}\": [2]}]}]",
        ),
    ];
    assert!(rt; gives(rt.alloc(), Orders::GroupBy, &rows)?);
    Ok(())
}

#[test]
fn arguments(rt: HostRuntime) -> Result<(), Fail> {
    let alloc = rt.alloc();
    for function in [Orders::Sort, Orders::Unique] {
        assert!(rt; answer(alloc, function, "[[], []]")? == Some(CallReport::Arity(1)));
        assert!(rt; answer(alloc, function, "[1]")? == Some(CallReport::WrongType(0, "list")));
    }
    for function in [Orders::SortBy, Orders::GroupBy] {
        assert!(rt; answer(alloc, function, "[[]]")? == Some(CallReport::Arity(2)));
        assert!(rt; answer(alloc, function, "[{}, 1]")? == Some(CallReport::WrongType(0, "list")));
        assert!(rt; answer(alloc, function, "[[], 1]")? == Some(CallReport::WrongType(1, "&str")));
    }
    Ok(())
}

#[test]
fn names(rt: HostRuntime) -> Result<(), Fail> {
    assert!(rt; ALL.len() == 4);
    for (function, name) in ALL.iter().zip(["sort", "sort_by", "unique", "group_by"]) {
        assert!(rt; function.name() == name);
    }
    Ok(())
}

// Maps with numbers at `k`: each number below this one, from the last, twice.
fn twice(alloc: Global, count: i64) -> Result<Value, AllocError> {
    let mut items = Vec::new(alloc);
    for number in 0..count * 2 {
        let key = String::from_str(alloc, "k")?;
        let value = Value::Integer(count - 1 - number % count);
        items.push(Value::from_pairs(alloc, [(key, value)])?)?;
    }
    Ok(Value::List(items))
}

// The number of items that a function leaves of that list.
fn left(alloc: Global, function: Orders, args: &[ValueCow]) -> Result<usize, AllocError> {
    match &report(function.call(alloc, args)) {
        CallReport::Value(Value::List(items)) => Ok(items.len()),
        _ => Ok(0),
    }
}

// How many texts, each of which is there twice.
const MANY: usize = 20_000; // ./test: 2_000

#[test]
fn many_items(rt: HostRuntime) -> Result<(), Fail> {
    let alloc = rt.alloc();
    let items = ValueCow::Owned(twice(alloc, MANY as i64)?);
    let name = ValueCow::Owned(Value::from_text(alloc, "k")?);
    let args = [items, name];
    assert!(rt; left(alloc, Orders::SortBy, &args)? == 2 * MANY);
    assert!(rt; left(alloc, Orders::GroupBy, &args)? == MANY);
    assert!(rt; left(alloc, Orders::Unique, &args[..1])? == MANY);
    Ok(())
}
