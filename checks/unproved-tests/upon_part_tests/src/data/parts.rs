// Data that are put together of several values: which one wins, what paths set, and what is refused.
use std::alloc::Global;
use std::test::Fail;
use upon_data::fault::DataFault;
use upon_data::format::{Format, read};
use upon_data::parts::{Data, PartFault};
use upon_types::value::Value;

// The value of a text of JSON.
fn value(alloc: Global, text: &str) -> Result<Value, Fail> {
    match read(alloc, Format::Json, text) {
        Ok(value) => Ok(value),
        Err(DataFault::OutOfMemory) => Err(Fail::new(format_args!("out of memory"))),
        Err(DataFault::Refused(refusal)) => Err(Fail::new(format_args!("{refusal} in {text}"))),
    }
}

// Checks that data are, after this, the map of a text of JSON.
fn are(
    alloc: Global,
    data: Data,
    done: Result<(), PartFault>,
    wanted: (Result<(), PartFault>, &str),
) -> Result<(), Fail> {
    let got = data.into_value();
    if done == wanted.0 && got == value(alloc, wanted.1)? {
        Ok(())
    } else {
        Err(Fail::new(format_args!("{got:?} and {done:?} in place of {wanted:?}")))
    }
}

#[test]
fn merged_values(rt: HostRuntime) -> Result<(), Fail> {
    let alloc = rt.alloc();
    for (first, second, wanted) in [
        ("{}", "{\"a\": 1}", (Ok(()), "{\"a\": 1}")),
        ("{\"a\": 1, \"b\": 2}", "{\"b\": 3, \"c\": 4}", (Ok(()), "{\"a\": 1, \"b\": 3, \"c\": 4}")),
        ("{\"a\": {\"b\": 1}}", "{\"a\": {\"c\": 2}}", (Ok(()), "{\"a\": {\"c\": 2}}")),
        ("{\"a\": 1}", "[1, 2]", (Ok(()), "{\"a\": 1, \"items\": [1, 2]}")),
        ("[1]", "[2]", (Ok(()), "{\"items\": [2]}")),
        ("{\"a\": 1}", "1", (Err(PartFault::NotObject), "{\"a\": 1}")),
        ("{\"a\": 1}", "null", (Err(PartFault::NotObject), "{\"a\": 1}")),
        ("{}", "\"x\"", (Err(PartFault::NotObject), "{}")),
        ("{}", "true", (Err(PartFault::NotObject), "{}")),
    ] {
        let mut data = Data::new(alloc);
        if data.merge(alloc, value(alloc, first)?).is_err() {
            return Err(Fail::new(format_args!("{first} is refused")));
        }
        let done = data.merge(alloc, value(alloc, second)?);
        are(alloc, data, done, wanted)?;
    }
    Ok(())
}

#[test]
fn values_at_keys(rt: HostRuntime) -> Result<(), Fail> {
    let alloc = rt.alloc();
    for (key, wanted) in [
        ("a", "{\"a\": 5, \"c\": 2}"),
        ("b", "{\"a\": {\"b\": 1}, \"b\": 5, \"c\": 2}"),
        ("a.b", "{\"a\": {\"b\": 1}, \"a.b\": 5, \"c\": 2}"),
        ("", "{\"\": 5, \"a\": {\"b\": 1}, \"c\": 2}"),
    ] {
        let mut data = Data::new(alloc);
        let begun = data.merge(alloc, value(alloc, "{\"a\": {\"b\": 1}, \"c\": 2}")?);
        let done = data.put_at(alloc, key, Value::Integer(5));
        are(alloc, data, if done.is_ok() { begun } else { Err(PartFault::OutOfMemory) }, (Ok(()), wanted))?;
    }
    Ok(())
}

#[test]
fn values_at_paths(rt: HostRuntime) -> Result<(), Fail> {
    let alloc = rt.alloc();
    let refused = Err(PartFault::NotMap);
    for (path, wanted) in [
        ("a", (Ok(()), "{\"a\": 5, \"c\": 2}")),
        ("a.b", (Ok(()), "{\"a\": {\"b\": 5}, \"c\": 2}")),
        ("a.d", (Ok(()), "{\"a\": {\"b\": 1, \"d\": 5}, \"c\": 2}")),
        ("b.d", (Ok(()), "{\"a\": {\"b\": 1}, \"b\": {\"d\": 5}, \"c\": 2}")),
        ("a.d.e", (Ok(()), "{\"a\": {\"b\": 1, \"d\": {\"e\": 5}}, \"c\": 2}")),
        ("c.d", (refused, "{\"a\": {\"b\": 1}, \"c\": 2}")),
        ("a.b.c", (refused, "{\"a\": {\"b\": 1}, \"c\": 2}")),
        ("c.", (refused, "{\"a\": {\"b\": 1}, \"c\": 2}")),
        (".a", (Ok(()), "{\"\": {\"a\": 5}, \"a\": {\"b\": 1}, \"c\": 2}")),
    ] {
        let mut data = Data::new(alloc);
        if data.merge(alloc, value(alloc, "{\"a\": {\"b\": 1}, \"c\": 2}")?).is_err() {
            return Err(Fail::new(format_args!("the begin is refused")));
        }
        let done = data.set(alloc, path, Value::Integer(5));
        are(alloc, data, done, wanted)?;
    }
    Ok(())
}
