// Texts of TOML: the maps that they become, and where they are refused.
use crate::data::texts::{becomes, is_refused};
use std::test::Fail;
use upon_data::format::Format;

#[test]
fn tables(rt: HostRuntime) -> Result<(), Fail> {
    for (text, wanted) in [
        ("", "{}"),
        ("# nothing\n", "{}"),
        ("\u{feff}a = 1\n", "{\"a\": 1}"),
        ("b = 1\r\na = 2\r\n", "{\"a\": 2, \"b\": 1}"),
        ("[a]\nb = 1\n[a.c]\nd = 2\n", "{\"a\": {\"b\": 1, \"c\": {\"d\": 2}}}"),
        ("[a.b]\n[a]\nc = 1\n", "{\"a\": {\"b\": {}, \"c\": 1}}"),
        ("a.b.c = 1\na.d = 2\n", "{\"a\": {\"b\": {\"c\": 1}, \"d\": 2}}"),
        ("\"a b\" = 1\n'c.d' = 2\n", "{\"a b\": 1, \"c.d\": 2}"),
        ("a = { b = 1, c = { d = true } }\n", "{\"a\": {\"b\": 1, \"c\": {\"d\": true}}}"),
    ] {
        becomes(rt.alloc(), Format::Toml, text, wanted)?;
    }
    Ok(())
}

#[test]
fn arrays(rt: HostRuntime) -> Result<(), Fail> {
    for (text, wanted) in [
        ("a = []\n", "{\"a\": []}"),
        ("a = [1, 2,\n 3,\n]\n", "{\"a\": [1, 2, 3]}"),
        ("a = [[1], [\"x\", false]]\n", "{\"a\": [[1], [\"x\", false]]}"),
        (
            "[[a]]\nb = 1\n[[a]]\nb = 2\n[a.c]\nd = 3\n",
            "{\"a\": [{\"b\": 1}, {\"b\": 2, \"c\": {\"d\": 3}}]}",
        ),
        ("a = [{ b = 1 }, { b = 2 }]\n", "{\"a\": [{\"b\": 1}, {\"b\": 2}]}"),
    ] {
        becomes(rt.alloc(), Format::Toml, text, wanted)?;
    }
    Ok(())
}

#[test]
fn strings_and_integers(rt: HostRuntime) -> Result<(), Fail> {
    for (text, wanted) in [
        ("a = \"x\\ty\\n\\u00e9\\U0001F600\"\n", "{\"a\": \"x\\ty\\né😀\"}"),
        ("a = 'C:\\x'\n", "{\"a\": \"C:\\\\x\"}"),
        ("a = \"\"\"\none\ntwo\"\"\"\n", "{\"a\": \"one\\ntwo\"}"),
        ("a = '''\none'''\n", "{\"a\": \"one\"}"),
        ("a = -9223372036854775808\n", "{\"a\": -9223372036854775808}"),
        ("a = +1_000\nb = 0xff\nc = 0o17\nd = 0b101\n", "{\"a\": 1000, \"b\": 255, \"c\": 15, \"d\": 5}"),
    ] {
        becomes(rt.alloc(), Format::Toml, text, wanted)?;
    }
    Ok(())
}

#[test]
fn floats_and_dates(rt: HostRuntime) -> Result<(), Fail> {
    for (text, wanted) in [
        ("a = 1.5\nb = -0.25\n", "{\"a\": \"1.5\", \"b\": \"-0.25\"}"),
        ("a = 3.0\nb = 19.90\n", "{\"a\": \"3.0\", \"b\": \"19.9\"}"),
        ("a = inf\nb = -inf\nc = nan\n", "{\"a\": \"inf\", \"b\": \"-inf\", \"c\": \"nan\"}"),
        ("a = 1979-05-27T07:32:00Z\n", "{\"a\": \"1979-05-27T07:32:00Z\"}"),
        ("a = 1979-05-27 07:32:00.5-07:00\n", "{\"a\": \"1979-05-27T07:32:00.5-07:00\"}"),
        ("a = 1979-05-27\nb = 07:32:00\n", "{\"a\": \"1979-05-27\", \"b\": \"07:32:00\"}"),
    ] {
        becomes(rt.alloc(), Format::Toml, text, wanted)?;
    }
    Ok(())
}

#[test]
fn refused_texts(rt: HostRuntime) -> Result<(), Fail> {
    for (text, wanted) in [
        ("a = 1\na = 2\n", "duplicate key at line 2 column 1"),
        ("a = \n", "invalid value, expected a string, number, boolean, date-time, array or inline table at line 1 column 5"),
        ("a = 9223372036854775808\n", "number out of range at line 1 column 5"),
    ] {
        is_refused(rt.alloc(), Format::Toml, text, wanted)?;
    }
    Ok(())
}
