// Shapes of samples, which are written as JSON: which are as wide as others, and what paths find in them.
use crate::render::stack::{DOT, MAYBE, Part, path};
use std::alloc::{AllocError, Global};
use std::process::Abort;
use std::test::Fail;
use upon_json::context::context;
use upon_shape::{Keys, Shape};
use upon_types::value::{Value, look};

// The shape of the samples that are the items of a list.
fn shape(alloc: Global, samples: &str) -> Result<Option<Shape>, AllocError> {
    let Ok(context) = context(alloc, Some(samples), &[]) else {
        return Ok(None);
    };
    match look::entry(&context, "items") {
        Some(Value::List(items)) => Ok(Some(Shape::of_samples(alloc, items)?)),
        _ => Ok(None),
    }
}

// Whether a shape is that of some samples.
fn is_of(alloc: Global, found: &Shape, samples: &str) -> Result<bool, AllocError> {
    match shape(alloc, samples)? {
        Some(wanted) => Ok(found.is_as_wide_as(&wanted) && wanted.is_as_wide_as(found)),
        None => Ok(false),
    }
}

#[test]
fn widths(rt: HostRuntime) -> Result<(), Fail> {
    let rows = [
        ("[1]", "[2]", true),
        ("[1]", r#"["a"]"#, false),
        ("[1, null]", "[null]", true),
        ("[1]", "[1, null]", false),
        ("[1]", "[]", true),
        ("[]", "[1]", false),
        ("[[1]]", "[[]]", true),
        ("[[]]", "[[1]]", false),
        ("[[1, true]]", "[[true], [1]]", true),
        (r#"[{"a": 1}]"#, r#"[{"a": 2}]"#, true),
        (r#"[{"a": 1}]"#, r#"[{"a": null}]"#, false),
        (r#"[{"a": 1}]"#, "[{}]", false),
        ("[{}]", r#"[{"a": 1}]"#, false),
        (r#"[{"a": 1}, {}]"#, "[{}]", true),
        (r#"[{"a": 1}, {}]"#, r#"[{"a": 1}]"#, true),
        (r#"[{"a": 1}, {}]"#, r#"[{"b": 1}]"#, false),
        (r#"[{"a": 1, "b": 1}, {"b": "x"}]"#, r#"[{"b": 1}]"#, true),
        (r#"[{"a": 1, "b": 1}, {"b": "x"}]"#, r#"[{"a": 1}]"#, false),
        (r#"[[{"a": [1]}]]"#, r#"[[{"a": []}]]"#, true),
        (r#"[[{"a": []}]]"#, r#"[[{"a": [1]}]]"#, false),
    ];
    let alloc = rt.alloc();
    for (wide, narrow, wanted) in rows {
        let is_wide = match (shape(alloc, wide)?, shape(alloc, narrow)?) {
            (Some(wide), Some(narrow)) => Some(wide.is_as_wide_as(&narrow)),
            _ => None,
        };
        assert!(rt; is_wide == Some(wanted));
    }
    Ok(())
}

#[test]
fn opened(rt: HostRuntime) -> Result<(), Fail> {
    let rows = [
        (r#"[{"a": 1}]"#, r#"[{"a": 2, "b": []}]"#, true),
        (r#"[{"a": 1}]"#, r#"[{"b": []}]"#, false),
        (r#"[{"a": 1}]"#, r#"[{"a": "x", "b": []}]"#, false),
        (r#"[[{}]]"#, r#"[[{"a": {"b": 1}}]]"#, true),
        (r#"[{"a": {}}]"#, r#"[{"a": {"b": 1}, "c": 1}]"#, true),
        ("[1]", "[{}]", false),
    ];
    let alloc = rt.alloc();
    for (samples, data, wanted) in rows {
        let is_wide = match (shape(alloc, samples)?, shape(alloc, data)?) {
            (Some(known), Some(data)) => Some(known.opened(alloc)?.is_as_wide_as(&data)),
            _ => None,
        };
        assert!(rt; is_wide == Some(wanted));
    }
    Ok(())
}

// Samples, a path, and samples of what it finds, unless that may be a fault.
type Row<'a> = (&'a str, &'a [Part<'a>], Option<&'a str>);

// Whether each row's path finds what is beside it.
fn finds(alloc: Global, rows: &[Row]) -> Result<bool, AllocError> {
    for (samples, parts, wanted) in rows {
        let Some(known) = shape(alloc, samples)? else {
            return Ok(false);
        };
        let is_right = match (known.walk(alloc, &path(alloc, 0, parts)?)?, wanted) {
            (Some(found), Some(wanted)) => is_of(alloc, &found, wanted)?,
            (None, None) => true,
            _ => false,
        };
        if !is_right {
            return Ok(false);
        }
    }
    Ok(true)
}

#[test]
fn paths(rt: HostRuntime) -> Result<(), Fail> {
    let rows: [Row; 13] = [
        ("[1]", &[], Some("[1]")),
        ("[1]", &[(DOT, "a")], None),
        (r#"[{"a": 1}]"#, &[(DOT, "a")], Some("[1]")),
        (
            r#"[{"a": 1}, {"a": "x"}]"#,
            &[(DOT, "a")],
            Some(r#"["x", 1]"#),
        ),
        (r#"[{"a": 1}, {}]"#, &[(DOT, "a")], None),
        (r#"[{"a": 1}, {}]"#, &[(MAYBE, "a")], Some("[1, null]")),
        (r#"[{"a": 1}, null]"#, &[(MAYBE, "a")], None),
        (r#"[{"a": 1}]"#, &[(MAYBE, "b")], Some("[null]")),
        (r#"[{"a": 1}]"#, &[(MAYBE, "0")], None),
        ("[[1]]", &[(DOT, "0")], None),
        ("[[1]]", &[(MAYBE, "0")], Some("[1, null]")),
        (
            r#"[{"a": {"b": [1]}}, {}]"#,
            &[(MAYBE, "a"), (DOT, "b")],
            Some("[[1], null]"),
        ),
        ("[]", &[(DOT, "a"), (DOT, "0")], Some("[]")),
    ];
    assert!(rt; finds(rt.alloc(), &rows)?);
    Ok(())
}

#[test]
fn narrowed(rt: HostRuntime) -> Result<(), Fail> {
    let rows: [(&str, &[Part], &str); 6] = [
        ("[1, null]", &[], "[1]"),
        (r#"[{"a": 1}, {}]"#, &[(DOT, "a")], r#"[{"a": 1}]"#),
        (r#"[{"a": null}, {"a": 1}]"#, &[(DOT, "a")], r#"[{"a": 1}]"#),
        (
            r#"[{"a": 1, "b": 1}, {"b": "x"}]"#,
            &[(MAYBE, "a")],
            r#"[{"a": 1, "b": 1}, {"a": 1, "b": "x"}]"#,
        ),
        (
            r#"[{"a": {"b": 1}}, {"a": {}}, null]"#,
            &[(DOT, "a"), (DOT, "b")],
            r#"[{"a": {"b": 1}}]"#,
        ),
        ("[[1], null]", &[(DOT, "0")], "[[1], null]"),
    ];
    let alloc = rt.alloc();
    for (samples, parts, wanted) in rows {
        let Some(known) = shape(alloc, samples)? else {
            return Err(Fail::new("no samples"));
        };
        let found = known.narrowed(alloc, &path(alloc, 0, parts)?)?;
        assert!(rt; is_of(alloc, &found, wanted)?);
    }
    Ok(())
}

#[test]
fn made_by_hand(rt: HostRuntime) -> Result<(), Fail> {
    let alloc = rt.alloc();
    let name = String::from_str(alloc, "a")?;
    let keys = Keys::no_others(alloc)?.with_key(name, true, Shape::integer())?;
    assert!(rt; is_of(alloc, &Shape::map_of(keys), r#"[{"a": 1}]"#)?);
    let numbers = Shape::list_of(alloc, Shape::never())?.with_item(alloc, &Shape::integer())?;
    assert!(rt; is_of(alloc, &numbers, "[[1], []]")?);
    let any_map = Shape::map_of(Keys::any_others(alloc)?);
    for (samples, wanted) in [(r#"[{}, {"a": [1]}]"#, true), ("[{}, 1]", false)] {
        let is_wide = shape(alloc, samples)?.map(|narrow| any_map.is_as_wide_as(&narrow));
        assert!(rt; is_wide == Some(wanted));
    }
    Ok(())
}

// How many lists are in each other.
const LISTS: usize = 100_000;

// Lists in each other, with an integer in the innermost.
fn lists(alloc: Global) -> Result<Value, AllocError> {
    let mut value = Value::Integer(1);
    for _ in 0..LISTS {
        let mut items = Vec::with_capacity(alloc, 1)?;
        items.push(value)?;
        value = Value::List(items);
    }
    Ok(value)
}

#[test]
fn deep_lists(rt: HostRuntime) -> Result<(), Fail> {
    let alloc = rt.alloc();
    let shape = Shape::of(alloc, &lists(alloc)?)?;
    assert!(rt; shape.is_deeper_than(127));
    assert!(rt; !shape.is_deeper_than(128));
    Ok(())
}
