// Texts of CSV: the lists of maps that they become, and records of another length than the head.
use crate::data::texts::{becomes, is_refused};
use std::test::Fail;
use upon_data::format::Format;

#[test]
fn plain_tables(rt: HostRuntime) -> Result<(), Fail> {
    for (text, wanted) in [
        ("", "[]"),
        ("\n\r\n", "[]"),
        ("a,b", "[]"),
        ("a,b\n", "[]"),
        ("a,b\n1,2\n", "[{\"a\": \"1\", \"b\": \"2\"}]"),
        ("a,b\n1,2", "[{\"a\": \"1\", \"b\": \"2\"}]"),
        ("b,a\n1,2\n", "[{\"a\": \"2\", \"b\": \"1\"}]"),
        ("a\nx\ny\n", "[{\"a\": \"x\"}, {\"a\": \"y\"}]"),
        ("a,b\n,\n", "[{\"a\": \"\", \"b\": \"\"}]"),
        ("a, b\n 1,2 \n", "[{\"a\": \" 1\", \" b\": \"2 \"}]"),
        ("é,b\nü,😀\n", "[{\"é\": \"ü\", \"b\": \"😀\"}]"),
    ] {
        becomes(rt.alloc(), Format::Csv, text, wanted)?;
    }
    Ok(())
}

#[test]
fn ends_of_lines(rt: HostRuntime) -> Result<(), Fail> {
    for (text, wanted) in [
        ("a,b\r\n1,2\r\n", "[{\"a\": \"1\", \"b\": \"2\"}]"),
        ("a,b\r\n1,2", "[{\"a\": \"1\", \"b\": \"2\"}]"),
        ("a\n\n1\n\n\n2\n", "[{\"a\": \"1\"}, {\"a\": \"2\"}]"),
        ("\na\n1\n", "[{\"a\": \"1\"}]"),
    ] {
        becomes(rt.alloc(), Format::Csv, text, wanted)?;
    }
    Ok(())
}

#[test]
fn quoted_fields(rt: HostRuntime) -> Result<(), Fail> {
    for (text, wanted) in [
        ("a,b\n\"1,2\",3\n", "[{\"a\": \"1,2\", \"b\": \"3\"}]"),
        ("a\n\"x\"\"y\"\n", "[{\"a\": \"x\\\"y\"}]"),
        ("a\n\"\"\"\"\n", "[{\"a\": \"\\\"\"}]"),
        ("a\n\"x\ny\"\n", "[{\"a\": \"x\\ny\"}]"),
        ("a\n\"x\r\ny\"\r\n", "[{\"a\": \"x\\r\\ny\"}]"),
        ("\"a,b\",\"c\"\n1,\"\"\n", "[{\"a,b\": \"1\", \"c\": \"\"}]"),
        ("a\n\"é, ü\"", "[{\"a\": \"é, ü\"}]"),
    ] {
        becomes(rt.alloc(), Format::Csv, text, wanted)?;
    }
    Ok(())
}

#[test]
fn marks_and_equal_names(rt: HostRuntime) -> Result<(), Fail> {
    for (text, wanted) in [
        ("\u{feff}a\n1\n", "[{\"a\": \"1\"}]"),
        ("\u{feff}", "[]"),
        ("a,a\n1,2\n", "[{\"a\": \"2\"}]"),
        ("a,b,a\n1,2,3\n", "[{\"a\": \"3\", \"b\": \"2\"}]"),
    ] {
        becomes(rt.alloc(), Format::Csv, text, wanted)?;
    }
    Ok(())
}

#[test]
fn records_of_another_length(rt: HostRuntime) -> Result<(), Fail> {
    for (text, wanted) in [
        ("a,b\n1\n", "1 fields in place of 2 at line 2 column 1"),
        ("a,b\n1,2\n1,2,3\n", "3 fields in place of 2 at line 3 column 1"),
        (
            "a,b\n\"1\n\",2\n3",
            "1 fields in place of 2 at line 4 column 1",
        ),
        ("a,b\r\n1,2\r\n3\r\n", "1 fields in place of 2 at line 3 column 1"),
        ("\u{feff}a\n\r\n\n1,2\n", "2 fields in place of 1 at line 4 column 1"),
        ("a\n\n1,2", "2 fields in place of 1 at line 3 column 1"),
    ] {
        is_refused(rt.alloc(), Format::Csv, text, wanted)?;
    }
    Ok(())
}
