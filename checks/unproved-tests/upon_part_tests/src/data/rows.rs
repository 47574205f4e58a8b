// Each kind of data becomes its value.
use crate::data::rows_say::{is, two};
use crate::data::samples::Shape;
use crate::data::wanted::{integers, one, text, with};
use serde::{Described, Serialize, Serializer};
use std::borrow::CowStr;
use std::collections::BTreeSet;
use upon_types::error::Result;
use upon_types::value::Value;

#[derive(Drop, Serialize)]
struct Nothing;

#[derive(Drop, Serialize)]
struct Meters(u8);

#[derive(Drop, Serialize)]
struct Point(i32, bool);

#[derive(Drop, Serialize)]
struct Named {
    id: u32,
    is_new: bool,
}

#[derive(Drop)]
struct Bytes<'a>(&'a [u8]);

impl Described for Bytes<'_> {}

impl Serialize for Bytes<'_> {
    fn serialize<S: Serializer>(&self, out: &mut S) -> std::result::Result<(), S::Error> {
        out.bytes(self.0)
    }
}

#[derive(Drop)]
struct Printed(u8);

impl Described for Printed {}

impl Serialize for Printed {
    fn serialize<S: Serializer>(&self, out: &mut S) -> std::result::Result<(), S::Error> {
        out.collect_str(&self.0)
    }
}

#[test]
fn no_value(rt: HostRuntime) -> Result<()> {
    is(&rt, (), Ok(Value::None))?;
    is(&rt, Nothing, Ok(Value::None))?;
    is(&rt, None::<u8>, Ok(Value::None))
}

#[test]
fn what_is_inside(rt: HostRuntime) -> Result<()> {
    is(&rt, Some(3u8), Ok(Value::Integer(3)))?;
    is(&rt, Some(None::<u8>), Ok(Value::None))?;
    is(&rt, Meters(4), Ok(Value::Integer(4)))?;
    is(&rt, &&5u8, Ok(Value::Integer(5)))?;
    is(&rt, Box::new(rt.alloc(), 6u8)?, Ok(Value::Integer(6)))
}

#[test]
fn truth_values(rt: HostRuntime) -> Result<()> {
    is(&rt, true, Ok(Value::Bool(true)))?;
    is(&rt, false, Ok(Value::Bool(false)))
}

#[test]
fn signed_integers(rt: HostRuntime) -> Result<()> {
    is(&rt, i8::MIN, Ok(Value::Integer(-128)))?;
    is(&rt, i16::MIN, Ok(Value::Integer(-32768)))?;
    is(&rt, i32::MIN, Ok(Value::Integer(-2147483648)))?;
    is(&rt, -5isize, Ok(Value::Integer(-5)))?;
    is(&rt, i64::MIN, Ok(Value::Integer(-9223372036854775808)))?;
    is(&rt, i64::MAX, Ok(Value::Integer(9223372036854775807)))
}

#[test]
fn unsigned_integers(rt: HostRuntime) -> Result<()> {
    is(&rt, u8::MAX, Ok(Value::Integer(255)))?;
    is(&rt, u16::MAX, Ok(Value::Integer(65535)))?;
    is(&rt, u32::MAX, Ok(Value::Integer(4294967295)))?;
    is(&rt, 7usize, Ok(Value::Integer(7)))?;
    is(
        &rt,
        9223372036854775807u64,
        Ok(Value::Integer(9223372036854775807)),
    )
}

#[test]
fn texts(rt: HostRuntime) -> Result<()> {
    let alloc = rt.alloc();
    is(&rt, 'x', text(alloc, "x"))?;
    is(&rt, 'é', text(alloc, "é"))?;
    is(&rt, "hé", text(alloc, "hé"))?;
    is(&rt, "", text(alloc, ""))?;
    is(&rt, String::from_str(alloc, "owned")?, text(alloc, "owned"))?;
    let lent: CowStr<'_> = CowStr::Borrowed("lent");
    is(&rt, lent, text(alloc, "lent"))?;
    is(&rt, Printed(8), text(alloc, "8"))?;
    is(&rt, Shape::Dot, text(alloc, "Dot"))
}

#[test]
fn lists(rt: HostRuntime) -> Result<()> {
    let alloc = rt.alloc();
    is(&rt, Bytes(b"\x00\xff"), integers(alloc, &[0, 255]))?;
    is(&rt, Bytes(b""), integers(alloc, &[]))?;
    is(&rt, [1i8, 2], integers(alloc, &[1, 2]))?;
    is(&rt, &[3u32, 4][..], integers(alloc, &[3, 4]))?;
    is(&rt, Vec::<u8>::new(alloc), integers(alloc, &[]))?;
    is(&rt, vec![in alloc; 5u8, 6]?, integers(alloc, &[5, 6]))?;
    is(&rt, (7u8,), integers(alloc, &[7]))?;
    is(
        &rt,
        (1u8, -2i8, 3u64, 4i64),
        integers(alloc, &[1, -2, 3, 4]),
    )?;
    is(
        &rt,
        Point(1, true),
        two(alloc, Value::Integer(1), Value::Bool(true)),
    )
}

#[test]
fn sets(rt: HostRuntime) -> Result<()> {
    let mut set = BTreeSet::new(rt.alloc());
    set.insert(9u8)?;
    set.insert(8)?;
    is(&rt, set, integers(rt.alloc(), &[8, 9]))
}

#[test]
fn structs(rt: HostRuntime) -> Result<()> {
    let alloc = rt.alloc();
    let wanted = one(alloc, "id", Value::Integer(1))?;
    let wanted = with(alloc, wanted, "is_new", Value::Bool(false))?;
    is(
        &rt,
        Named {
            id: 1,
            is_new: false,
        },
        Ok(wanted),
    )
}

#[test]
fn variants(rt: HostRuntime) -> Result<()> {
    let alloc = rt.alloc();
    is(&rt, Shape::Round(7), one(alloc, "Round", Value::Integer(7)))?;
    let sides = integers(alloc, &[1, 2])?;
    is(&rt, Shape::Box(1, 2), one(alloc, "Box", sides))?;
    let inside = one(alloc, "inner", Value::Integer(3))?;
    let inside = with(alloc, inside, "outer", Value::Integer(5))?;
    is(
        &rt,
        Shape::Ring { inner: 3, outer: 5 },
        one(alloc, "Ring", inside),
    )
}
