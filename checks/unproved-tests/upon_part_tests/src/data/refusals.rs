// What no value can hold, with the reason.
use crate::data::rows_say::{is, is_refused};
use crate::data::wanted::integers;
use serde::{Described, Serialize, Serializer};
use std::collections::BTreeMap;
use std::test::Fail;
use upon_serde::to_value;
use upon_types::error::ErrorKind;

const FLOAT: &str = "floating point numbers are not supported";

#[derive(Drop, Serialize)]
struct Priced {
    name: &'static str,
    price: f64,
}

#[test]
fn floats(rt: HostRuntime) {
    is_refused(&rt, 1.5f32, FLOAT);
    is_refused(&rt, 0.0f64, FLOAT);
    is_refused(&rt, [1.5f64], FLOAT);
    is_refused(&rt, Some((1u8, 1.5f32)), FLOAT);
    is_refused(
        &rt,
        Priced {
            name: "x",
            price: 2.5,
        },
        FLOAT,
    );
}

#[test]
fn a_map_with_a_float(rt: HostRuntime) -> Result<(), Fail> {
    let mut map = BTreeMap::new(rt.alloc());
    map.insert("a", 1.5f64)?;
    is_refused(&rt, map, FLOAT);
    Ok(())
}

#[test]
fn numbers_past_the_integers(rt: HostRuntime) {
    let range = "out of range integral type conversion attempted";
    is_refused(&rt, u64::MAX, range);
    is_refused(&rt, 9223372036854775808u64, range);
    is_refused(&rt, [1u64, 9223372036854775808], range);
    is_refused(&rt, usize::MAX, range);
}

#[test]
fn wide_numbers(rt: HostRuntime) {
    is_refused(&rt, 1i128, "i128 is not supported");
    is_refused(&rt, 1u128, "u128 is not supported");
}

#[derive(Drop)]
struct Picky;

impl Described for Picky {}

impl Serialize for Picky {
    fn serialize<S: Serializer>(&self, out: &mut S) -> Result<(), S::Error> {
        Err(out.custom("too picky"))
    }
}

#[test]
fn its_own_reason(rt: HostRuntime) {
    is_refused(&rt, Picky, "too picky");
    is_refused(&rt, [Some(Picky)], "too picky");
}

#[test]
fn the_first_reason_counts(rt: HostRuntime) {
    is_refused(&rt, (1.5f64, u64::MAX, Picky), FLOAT);
    is_refused(&rt, (Picky, 1.5f64, u64::MAX), "too picky");
}

// What no derive writes: serde's calls in a wrong order.
#[derive(Drop)]
struct Wrong(u8);

impl Described for Wrong {}

impl Serialize for Wrong {
    fn serialize<S: Serializer>(&self, out: &mut S) -> Result<(), S::Error> {
        match self.0 {
            0 => Ok(()),
            1 => out.end_map(),
            2 => out.begin_seq(None),
            3 => out.begin_map(Some(1)),
            4 => out.key("a"),
            5 => {
                out.bool(true)?;
                out.bool(true)
            }
            6 => {
                out.begin_map(None)?;
                out.begin_key()?;
                out.end_key()
            }
            7 => {
                out.begin_map(None)?;
                out.bool(true)?;
                out.end_map()
            }
            8 => {
                out.begin_map(None)?;
                out.key("a")?;
                out.end_map()
            }
            9 => {
                out.begin_map(None)?;
                out.begin_key()?;
                out.str("a")?;
                out.str("b")?;
                out.end_key()
            }
            _ => {
                out.begin_seq(None)?;
                out.end_map()
            }
        }
    }
}

#[test]
fn calls_in_a_wrong_order(rt: HostRuntime) {
    for case in 0..11u8 {
        is_refused(&rt, Wrong(case), "serde's data are incomplete");
    }
}

#[derive(Drop, Serialize)]
struct Flat {
    id: u8,
    #[serde(flatten)]
    rest: Untagged,
}

#[derive(Drop)]
struct Untagged;

impl Described for Untagged {}

impl Serialize for Untagged {
    fn serialize<S: Serializer>(&self, out: &mut S) -> Result<(), S::Error> {
        out.bool(true)
    }
}

#[test]
fn flattened_without_members(rt: HostRuntime) {
    let flat = Flat {
        id: 1,
        rest: Untagged,
    };
    is_refused(&rt, flat, "can only flatten structs and maps");
}

// It says that it has more items than any memory holds, and has none.
#[derive(Drop)]
struct Boastful;

impl Described for Boastful {}

impl Serialize for Boastful {
    fn serialize<S: Serializer>(&self, out: &mut S) -> Result<(), S::Error> {
        out.begin_seq(Some(usize::MAX))?;
        out.end_seq()
    }
}

#[test]
fn a_length_is_a_hint(rt: HostRuntime) -> upon_types::error::Result<()> {
    is(&rt, Boastful, integers(rt.alloc(), &[]))
}

#[test]
fn one_line(rt: HostRuntime) -> Result<(), Fail> {
    match to_value(rt.alloc(), 0.5f64) {
        Ok(_) => panic!(rt; "a float became a value"),
        Err(error) => {
            assert!(rt; matches!(error.kind(), ErrorKind::Serialize));
            let line = format!(in rt.alloc(); "{error}")?;
            assert_eq!(rt;
                line.as_str(),
                "serialize error: floating point numbers are not supported"
            );
        }
    }
    Ok(())
}
