// Data in data.
use crate::data::rows_say::{is, two};
use crate::data::samples::Shape;
use crate::data::wanted::{integers, one, text, with};
use serde::Serialize;
use std::alloc::{AllocError, Global};
use std::collections::BTreeMap;
use upon_serde::{to_value, value};
use upon_types::error::Result;
use upon_types::value::Value;

#[derive(Drop, Serialize)]
struct Drawing {
    shapes: Vec<Option<Shape>>,
    by_layer: BTreeMap<i8, Vec<Shape>>,
}

fn sample(alloc: Global) -> Result<Drawing> {
    let mut by_layer = BTreeMap::new(alloc);
    by_layer.insert(-1, vec![in alloc; Shape::Round(1)]?)?;
    by_layer.insert(2, Vec::new(alloc))?;
    let ring = Shape::Ring { inner: 3, outer: 5 };
    let shapes = vec![in alloc;
        Some(Shape::Dot),
        None,
        Some(Shape::Round(7)),
        Some(Shape::Box(1, 2)),
        Some(ring),
    ]?;
    Ok(Drawing { shapes, by_layer })
}

// The list of the shapes, as the table of rows gives it.
fn wanted_shapes(alloc: Global) -> std::result::Result<Value, AllocError> {
    let inside = one(alloc, "inner", Value::Integer(3))?;
    let inside = with(alloc, inside, "outer", Value::Integer(5))?;
    let sides = integers(alloc, &[1, 2])?;
    let mut shapes = Vec::new(alloc);
    shapes.push(text(alloc, "Dot")?)?;
    shapes.push(Value::None)?;
    shapes.push(one(alloc, "Round", Value::Integer(7))?)?;
    shapes.push(one(alloc, "Box", sides)?)?;
    shapes.push(one(alloc, "Ring", inside)?)?;
    Ok(Value::List(shapes))
}

fn wanted_drawing(alloc: Global) -> std::result::Result<Value, AllocError> {
    let round = one(alloc, "Round", Value::Integer(1))?;
    let mut layer = Vec::new(alloc);
    layer.push(round)?;
    let layers = one(alloc, "-1", Value::List(layer))?;
    let layers = with(alloc, layers, "2", Value::List(Vec::new(alloc)))?;
    let whole = one(alloc, "shapes", wanted_shapes(alloc)?)?;
    with(alloc, whole, "by_layer", layers)
}

#[test]
fn vectors_of_options_of_variants(rt: HostRuntime) -> Result<()> {
    is(&rt, sample(rt.alloc())?, wanted_drawing(rt.alloc()))
}

#[test]
fn a_value_read_again(rt: HostRuntime) -> Result<()> {
    let alloc = rt.alloc();
    let value = wanted_drawing(alloc)?;
    is(&rt, &value, wanted_drawing(alloc))?;
    let inside = two(alloc, value, Value::Bool(false));
    let again = to_value(alloc, &inside?)?;
    is(
        &rt,
        again,
        two(alloc, wanted_drawing(alloc)?, Value::Bool(false)),
    )
}

#[derive(Drop, Serialize)]
struct Owner<'a> {
    name: &'a str,
    #[serde(skip_serializing_if = "Option::is_none")]
    boss: Option<Box<Owner<'a>>>,
}

#[test]
fn a_struct_in_its_own_kind(rt: HostRuntime) -> Result<()> {
    let alloc = rt.alloc();
    let boss = Owner {
        name: "Jane",
        boss: None,
    };
    let owner = Owner {
        name: "John",
        boss: Some(Box::new(alloc, boss)?),
    };
    let jane = one(alloc, "name", text(alloc, "Jane")?)?;
    let john = one(alloc, "name", text(alloc, "John")?)?;
    is(&rt, owner, with(alloc, john, "boss", jane))
}

#[derive(Drop, Serialize)]
struct Near {
    x: u8,
}

#[derive(Drop, Serialize)]
#[serde(rename_all = "camelCase")]
struct Far {
    #[serde(flatten)]
    near: Near,
    far_off: u8,
    #[serde(rename = "the end")]
    end: Kind,
}

#[derive(Drop, Serialize)]
#[serde(rename_all = "kebab-case")]
enum Kind {
    OpenEnd,
}

#[test]
fn names_that_are_spelled_otherwise(rt: HostRuntime) -> Result<()> {
    let alloc = rt.alloc();
    let far = Far {
        near: Near { x: 1 },
        far_off: 2,
        end: Kind::OpenEnd,
    };
    let wanted = one(alloc, "x", Value::Integer(1))?;
    let wanted = with(alloc, wanted, "farOff", Value::Integer(2))?;
    is(
        &rt,
        far,
        with(alloc, wanted, "the end", text(alloc, "open-end")?),
    )
}

#[derive(Drop, Serialize)]
struct Mixed {
    first: u8,
    #[serde(flatten)]
    more: BTreeMap<&'static str, Option<u8>>,
    #[serde(flatten)]
    none: Option<Near>,
    second: u8,
}

#[test]
fn flattened_maps(rt: HostRuntime) -> Result<()> {
    let alloc = rt.alloc();
    let mut more = BTreeMap::new(alloc);
    more.insert("a", Some(1u8))?;
    more.insert("second", None)?;
    let mixed = Mixed {
        first: 0,
        more,
        none: None,
        second: 2,
    };
    let wanted = value! { in alloc; first: 0, a: 1, second: 2 }?;
    is(&rt, mixed, Ok(wanted))
}
