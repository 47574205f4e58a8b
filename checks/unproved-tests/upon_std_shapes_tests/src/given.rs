// What calls of standard functions give, by the shapes of their arguments: by the first signature that takes them.
use crate::tables::all_declared;
use std::alloc::{AllocError, Global};
use std::test::Fail;
use upon_shape_check::declared::Declared;
use upon_json::context::context;
use upon_shape::shape::Shape;
use upon_types::value::{Value, look};

// The shapes of the items of a list.
fn shapes_of(alloc: Global, list: &str) -> Result<Option<Vec<Shape>>, AllocError> {
    let Ok(context) = context(alloc, Some(list), &[]) else {
        return Ok(None);
    };
    let Some(Value::List(items)) = look::entry(&context, "items") else {
        return Ok(None);
    };
    let mut shapes = Vec::new(alloc);
    for item in items {
        shapes.push(Shape::of(alloc, item)?)?;
    }
    Ok(Some(shapes))
}

// The shape of samples, which are the items of a list; none of an empty list.
fn shape_of_samples(alloc: Global, samples: &str) -> Result<Option<Shape>, AllocError> {
    let mut joined = None;
    for shape in shapes_of(alloc, samples)?.unwrap_or(Vec::new(alloc)) {
        joined = Some(match joined {
            None => shape,
            Some(other) => shape.join(alloc, &other)?,
        });
    }
    Ok(joined)
}

// Whether one shape is the other.
fn is_same(found: Option<&Shape>, wanted: Option<&Shape>) -> bool {
    match (found, wanted) {
        (Some(found), Some(wanted)) => found.is_as_wide_as(wanted) && wanted.is_as_wide_as(found),
        (None, None) => true,
        _ => false,
    }
}

// Whether a call with arguments that are as these samples gives what is as the others.
fn gives(
    alloc: Global,
    declared: &Declared,
    name: &str,
    arguments: &str,
    samples: &str,
) -> Result<bool, AllocError> {
    let Some(shapes) = shapes_of(alloc, arguments)? else {
        return Ok(false);
    };
    let wanted = shape_of_samples(alloc, samples)?;
    Ok(is_same(declared.value_given(name, &shapes), wanted.as_ref()))
}

#[test]
fn given_values(rt: HostRuntime) -> Result<(), Fail> {
    let declared = all_declared(rt.alloc())?;
    for (name, arguments, samples) in [
        ("upper", r#"["a"]"#, r#"["a"]"#),
        ("eq", r#"[1, "a"]"#, "[true]"),
        ("lt", r#"["a", "b"]"#, "[true]"),
        ("not", "[[]]", "[true]"),
        ("default", r#"[null, "a"]"#, r#"["a"]"#),
        ("default", "[null, []]", r#"[["a"]]"#),
        ("default", r#"[1, "a"]"#, r#"[null, true, 1, "a"]"#),
        ("choose", "[[], 1, 2]", "[1]"),
        ("choose", "[[], [1], []]", r#"[[null, true, 1, "a"]]"#),
        ("contains", r#"["a", "b"]"#, "[true]"),
        ("first", "[[1, 2]]", "[1, null]"),
        ("last", "[[true]]", "[true, null]"),
        ("reverse", r#"[["b"]]"#, r#"[["b"]]"#),
        ("join", r#"[["b"], ", "]"#, r#"["b"]"#),
        ("keys", r#"[{"a": 1}]"#, r#"[["a"]]"#),
        ("values", r#"[{"a": 1, "b": 2}]"#, "[[1]]"),
        ("get", r#"[{"a": 1}, "b", 0]"#, "[1]"),
        ("sort", "[[2, 1]]", "[[1]]"),
        ("sort", r#"[["b", "a"]]"#, r#"[["a"]]"#),
        ("unique", r#"[[1, "a"]]"#, r#"[[null, true, 1, "a"]]"#),
        ("concat", r#"[[1], ["a"]]"#, r#"[[null, true, 1, "a"]]"#),
        ("pluck", r#"[[{"a": 1}, {}], "a"]"#, "[[1, null]]"),
        ("where", r#"[["a"], "b", 1]"#, r#"[["a"]]"#),
        ("lines", r#"["a"]"#, r#"[["a"]]"#),
        ("json", "[[{}]]", r#"["a"]"#),
        ("yaml", r#"["a"]"#, r#"["a"]"#),
    ] {
        let is_given = gives(rt.alloc(), &declared, name, arguments, samples)?;
        assert!(&rt; is_given, "{name} of {arguments}");
    }
    Ok(())
}

#[test]
fn arguments_that_are_not_taken(rt: HostRuntime) -> Result<(), Fail> {
    let declared = all_declared(rt.alloc())?;
    for (name, arguments) in [
        ("upper", "[]"),
        ("upper", "[1]"),
        ("upper", r#"["a", "b"]"#),
        ("lt", r#"[1, "a"]"#),
        ("lt", "[null, null]"),
        ("choose", "[1, 2]"),
        ("first", r#"["a"]"#),
        ("first", "[{}]"),
        ("join", r#"[[1], ", "]"#),
        ("join", r#"[["a"]]"#),
        ("keys", "[[]]"),
        ("get", r#"[{"a": 1}, 1, 1]"#),
        ("sort", "[[null]]"),
        ("sort", r#"[[1, "a"]]"#),
        ("sort_by", r#"[[], "a"]"#),
        ("length", "[[]]"),
        ("min", "[1, 2]"),
        ("shell", r#"["a"]"#),
        ("no_function", "[]"),
    ] {
        let is_none = gives(rt.alloc(), &declared, name, arguments, "[]")?;
        assert!(&rt; is_none, "{name} of {arguments}");
    }
    Ok(())
}
