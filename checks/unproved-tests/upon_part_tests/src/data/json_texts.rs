// Texts of JSON, and of a value of JSON in each line: what they become, and where they are refused.
use crate::data::texts::{becomes, is_refused};
use std::test::Fail;
use upon_data::format::Format;

#[test]
fn whole_texts(rt: HostRuntime) -> Result<(), Fail> {
    for (text, wanted) in [
        ("\u{feff}[1]", "[1]"),
        (" 1.50 ", "\"1.50\""),
        ("\n{\"a\": 1,\n\"a\": 2}\n", "{\"a\": 2}"),
    ] {
        becomes(rt.alloc(), Format::Json, text, wanted)?;
    }
    Ok(())
}

#[test]
fn lists_of_lines(rt: HostRuntime) -> Result<(), Fail> {
    for (text, wanted) in [
        ("", "[]"),
        ("\n \n\t\r\n", "[]"),
        ("1", "[1]"),
        ("{\"a\": 1}\n[2]\n", "[{\"a\": 1}, [2]]"),
        ("1\r\n2\r\n", "[1, 2]"),
        ("1\n\n \t\n2", "[1, 2]"),
        ("\u{feff}1\n2", "[1, 2]"),
        (" null \n\"x\\ny\"\n", "[null, \"x\\ny\"]"),
        ("12345678901234567890\n", "[\"12345678901234567890\"]"),
    ] {
        becomes(rt.alloc(), Format::JsonLines, text, wanted)?;
    }
    Ok(())
}

#[test]
fn refused_texts(rt: HostRuntime) -> Result<(), Fail> {
    for (text, wanted) in [
        ("", "EOF while parsing at line 1 column 0"),
        ("[1,\n2,\n]", "invalid JSON at line 3 column 1"),
    ] {
        is_refused(rt.alloc(), Format::Json, text, wanted)?;
    }
    Ok(())
}

#[test]
fn refused_lines(rt: HostRuntime) -> Result<(), Fail> {
    for (text, wanted) in [
        ("{\"a\": }", "invalid JSON at line 1 column 7"),
        ("1\n\n{\"a\": }\n", "invalid JSON at line 3 column 7"),
        ("1\n2\n[1, 2\n3\n", "EOF while parsing at line 3 column 5"),
        ("1 2\n", "invalid JSON at line 1 column 3"),
        ("{}\n{\n}\n", "EOF while parsing at line 2 column 1"),
    ] {
        is_refused(rt.alloc(), Format::JsonLines, text, wanted)?;
    }
    Ok(())
}
