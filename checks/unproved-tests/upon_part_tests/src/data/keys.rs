// What may be a key of a map, and which text it is.
use crate::data::rows_say::{is, is_refused};
use crate::data::samples::Shape;
use crate::data::wanted::{one, text, with};
use serde::{Described, Serialize, Serializer};
use std::collections::BTreeMap;
use std::process::Abort;
use upon_types::error::Result;
use upon_types::value::Value;

#[derive(Drop, Serialize)]
struct Code(&'static str);

#[derive(Drop, Serialize)]
struct Outer(Inner);

#[derive(Drop, Serialize)]
struct Inner(i16);

#[derive(Drop, Serialize)]
struct Nothing;

// A map that has `true` at a key of any type.
#[derive(Drop)]
struct Keyed<K>(K);

impl<K> Described for Keyed<K> {}

impl<K: Serialize> Serialize for Keyed<K> {
    fn serialize<S: Serializer>(&self, out: &mut S) -> std::result::Result<(), S::Error> {
        out.begin_map(Some(1))?;
        out.begin_key()?;
        self.0.serialize(out)?;
        out.end_key()?;
        out.bool(true)?;
        out.end_map()
    }
}

// The key becomes this text.
fn is_key<K: Serialize + Drop>(
    rt: &(impl Abort + AllocGlobal),
    key: K,
    wanted: &str,
) -> Result<()> {
    is(rt, Keyed(key), one(rt.alloc(), wanted, Value::Bool(true)))
}

// A map with the key is refused.
fn is_no_key<K: Serialize + Drop>(rt: &(impl Abort + AllocGlobal), key: K) {
    is_refused(rt, Keyed(key), "map key must be a string");
}

#[test]
fn texts(rt: HostRuntime) -> Result<()> {
    is_key(&rt, "a", "a")?;
    is_key(&rt, "", "")?;
    is_key(&rt, String::from_str(rt.alloc(), "é")?, "é")?;
    is_key(&rt, 'b', "b")?;
    is_key(&rt, Shape::Dot, "Dot")
}

#[test]
fn whole_numbers(rt: HostRuntime) -> Result<()> {
    is_key(&rt, -3i8, "-3")?;
    is_key(&rt, i64::MIN, "-9223372036854775808")?;
    is_key(&rt, 0u8, "0")?;
    is_key(&rt, u64::MAX, "18446744073709551615")
}

#[test]
fn inside_newtype_structs(rt: HostRuntime) -> Result<()> {
    is_key(&rt, Code("k"), "k")?;
    is_key(&rt, Outer(Inner(-12)), "-12")
}

#[test]
fn others_are_no_keys(rt: HostRuntime) {
    is_no_key(&rt, true);
    is_no_key(&rt, ());
    is_no_key(&rt, Nothing);
    is_no_key(&rt, None::<u8>);
    is_no_key(&rt, 1.5f64);
    is_no_key(&rt, 1u128);
    is_no_key(&rt, 1i128);
    is_no_key(&rt, i128::MIN);
}

#[test]
fn lists_are_no_keys(rt: HostRuntime) {
    is_no_key(&rt, [1u8]);
    is_no_key(&rt, (1u8, 2u8));
    is_no_key(&rt, Vec::<u8>::new(rt.alloc()));
}

#[test]
fn maps_are_no_keys(rt: HostRuntime) {
    is_no_key(&rt, BTreeMap::<u8, u8>::new(rt.alloc()));
    is_no_key(&rt, Keyed("a"));
}

#[test]
fn variants_with_data_are_no_keys(rt: HostRuntime) {
    is_no_key(&rt, Shape::Round(1));
    is_no_key(&rt, Shape::Box(1, 2));
    is_no_key(&rt, Shape::Ring { inner: 1, outer: 2 });
}

#[test]
fn maps_of_the_library(rt: HostRuntime) -> Result<()> {
    let mut map = BTreeMap::new(rt.alloc());
    map.insert(10u8, 'a')?;
    map.insert(9, 'b')?;
    let wanted = one(rt.alloc(), "9", text(rt.alloc(), "b")?)?;
    is(
        &rt,
        map,
        with(rt.alloc(), wanted, "10", text(rt.alloc(), "a")?),
    )
}

// Two entries with one key.
#[derive(Drop)]
struct Twice;

impl Described for Twice {}

impl Serialize for Twice {
    fn serialize<S: Serializer>(&self, out: &mut S) -> std::result::Result<(), S::Error> {
        out.begin_map(None)?;
        out.key("a")?;
        out.u64(1)?;
        out.key("a")?;
        out.u64(2)?;
        out.end_map()
    }
}

#[test]
fn the_last_of_equal_keys_counts(rt: HostRuntime) -> Result<()> {
    is(&rt, Twice, one(rt.alloc(), "a", Value::Integer(2)))
}
