// Checks on contexts: the samples that words say, the schemas of their shapes, and where templates may fail on them.
use std::alloc::{AllocError, Global};
use std::test::Fail;
use upon::{Limits, Syntax};
use upon_calls::options::Options;
use upon_calls::pages::check_pages;
use upon_data::format::Format;
use upon_data::lines::json;
use upon_shape::shape::Shape;
use upon_tool_data::files::read_value;
use upon_tool_data::samples::samples;
use upon_tool_data::words::DataWords;
use upon_tool_io::arguments::{ContextsCall, DataCall, Escape};
use upon_tool_messages::picture::shown;
use upon_tool_pages::contexts::shape_of;
use upon_tool_pages::fitting::{OnShape, fits};
use upon_tool_pages::written::send_schema;
use upon_types::value::Value;

// An empty file, which has the empty object in TOML, and the empty list in JSON lines and CSV.
const EMPTY: &str = "/dev/null";

// The value of a text of JSON.
fn value(alloc: Global, text: &str) -> Result<Value, Fail> {
    json(alloc, text).map_err(|_| Fail::new(format_args!("no JSON: {text}")))
}

#[test]
fn one_for_each_file(rt: HostRuntime) -> Result<(), Fail> {
    let alloc = rt.alloc();
    let texts = ["x=y"];
    for (files, format, input, wanted) in [
        ([].as_slice(), "toml", "unread", "[{\"x\": \"y\"}]"),
        (["-"].as_slice(), "json", "{\"a\": 1, \"x\": 2}", "[{\"a\": 1, \"x\": \"y\"}]"),
        (["-"].as_slice(), "csv", "a\n1\n", "[{\"items\": [{\"a\": \"1\"}], \"x\": \"y\"}]"),
        (["k=-"].as_slice(), "json", "1", "[{\"k\": 1, \"x\": \"y\"}]"),
        ([EMPTY, "-"].as_slice(), "toml", "a = 1", "[{\"x\": \"y\"}, {\"a\": 1, \"x\": \"y\"}]"),
        (["-", EMPTY].as_slice(), "toml", "a = 1", "[{\"a\": 1, \"x\": \"y\"}, {\"x\": \"y\"}]"),
        (["k=-", EMPTY].as_slice(), "toml", "a = 1", "[{\"k\": {\"a\": 1}, \"x\": \"y\"}]"),
        (
            ["k=/dev/null", "-", "l=/dev/null", EMPTY].as_slice(),
            "jsonl",
            "1\n",
            "[{\"items\": [1], \"k\": [], \"l\": [], \"x\": \"y\"}, {\"items\": [], \"k\": [], \"l\": [], \"x\": \"y\"}]",
        ),
    ] {
        let words = DataWords {
            env: false,
            files,
            format: Some(format),
            values: [].as_slice(),
            texts: texts.as_slice(),
        };
        let mut input = input.as_bytes();
        let got = match samples(&rt, &words, &mut input) {
            Ok(all) => Value::List(all),
            Err(fault) => return Err(Fail::new(format_args!("{fault}, of {files:?}"))),
        };
        if got != value(alloc, wanted)? {
            return Err(Fail::new(format_args!("{got:?} in place of {wanted}, of {files:?}")));
        }
    }
    Ok(())
}

#[test]
fn refused_samples(rt: HostRuntime) -> Result<(), Fail> {
    let alloc = rt.alloc();
    for (files, input, wanted) in [
        ([EMPTY, EMPTY, "k=-"], "a = 1", "standard input can be read only once"),
        ([EMPTY, "-", "k=-"], "a = 1", "standard input can be read only once"),
        ([EMPTY, "-", "k=/dev/null"], "a = 1\na = 2\n", "-: duplicate key at line 2 column 1"),
        ([EMPTY, "k=/dev/null", "./none.toml"], "", "cannot read ./none.toml: No such file or directory (os error 2)"),
    ] {
        let words = DataWords {
            env: false,
            files: files.as_slice(),
            format: Some("toml"),
            values: [].as_slice(),
            texts: [].as_slice(),
        };
        let mut input = input.as_bytes();
        let said = match samples(&rt, &words, &mut input) {
            Ok(all) => format!(in alloc; "{} samples", all.len())?,
            Err(fault) => format!(in alloc; "{fault}")?,
        };
        if said.as_str() != wanted {
            return Err(Fail::new(format_args!("{said} in place of {wanted}, of {files:?}")));
        }
    }
    Ok(())
}

#[test]
fn values_of_files(rt: HostRuntime) -> Result<(), Fail> {
    let alloc = rt.alloc();
    for (name, given, input, wanted) in [
        ("-", None, "[1]", "[1]"),
        ("-", Some(Format::Json), "\"x\"", "\"x\""),
        ("-", Some(Format::Toml), "a = 1", "{\"a\": 1}"),
        (EMPTY, Some(Format::Toml), "unread", "{}"),
    ] {
        let mut input = input.as_bytes();
        let got = match read_value(&rt, name, given, &mut input) {
            Ok(got) => got,
            Err(fault) => return Err(Fail::new(format_args!("{fault}"))),
        };
        if got != value(alloc, wanted)? {
            return Err(Fail::new(format_args!("{got:?} in place of {wanted}, of {name}")));
        }
    }
    let mut input = "{".as_bytes();
    match read_value(&rt, "-", None, &mut input) {
        Ok(got) => Err(Fail::new(format_args!("{got:?} in place of a fault"))),
        Err(_) => Ok(()),
    }
}

// The contexts of these files, or of a schema.
fn contexts_call<'a>(
    alloc: Global,
    schema: Option<&'a str>,
    files: &[&'a str],
) -> Result<ContextsCall<'a>, AllocError> {
    let data = DataCall {
        env: false,
        files: Vec::from_slice(alloc, files)?,
        format: if schema.is_some() { None } else { Some("jsonl") },
        set_json: Vec::new(alloc),
        set: Vec::new(alloc),
    };
    Ok(ContextsCall { schema, data })
}

// The shape of contexts, or what is said.
fn shape_by(
    rt: &HostRuntime,
    schema: Option<&str>,
    files: &[&str],
    input: &str,
) -> Result<Result<Shape, String>, Fail> {
    let alloc = rt.alloc();
    let call = contexts_call(alloc, schema, files)?;
    let mut input = input.as_bytes();
    let mut err = Vec::new(alloc);
    match shape_of(rt, &call, &mut input, &mut err) {
        Ok(Some(shape)) => Ok(Ok(shape)),
        Ok(None) => Ok(Err(String::from_utf8_lossy(alloc, err.as_slice())?)),
        Err(fault) => Ok(Err(format!(in alloc; "{fault}")?)),
    }
}

#[test]
fn schemas(rt: HostRuntime) -> Result<(), Fail> {
    let alloc = rt.alloc();
    for (schema, files, input, wanted) in [
        (
            None,
            ["-"].as_slice(),
            "1\n\"a\"\n",
            "{\"additionalProperties\":false,\"properties\":{\"items\":{\"items\":{\"type\":[\"integer\",\"string\"]},\"type\":\"array\"}},\"required\":[\"items\"],\"type\":\"object\"}\n",
        ),
        (
            None,
            ["k=-", EMPTY].as_slice(),
            "",
            "{\"additionalProperties\":false,\"properties\":{\"items\":{\"items\":false,\"type\":\"array\"},\"k\":{\"items\":false,\"type\":\"array\"}},\"required\":[\"items\",\"k\"],\"type\":\"object\"}\n",
        ),
        (None, [].as_slice(), "unread", "{\"additionalProperties\":false,\"type\":\"object\"}\n"),
        (None, ["-"].as_slice(), "{\n", "-: EOF while parsing at line 1 column 1"),
        (Some("-"), [].as_slice(), "{\"type\": [\"null\", \"string\"]}", "{\"type\":[\"string\",\"null\"]}\n"),
        (Some("-"), [].as_slice(), "true", "true\n"),
        (Some("-"), [].as_slice(), "{\"items\": {\"pattern\": \"x\"}}", "upon-tool: -: unknown keyword at /items/pattern\n"),
        (Some("-"), [].as_slice(), "{", "-: EOF while parsing at line 1 column 1"),
    ] {
        let said = match shape_by(&rt, schema, files, input)? {
            Ok(shape) => {
                let mut out = Vec::new(alloc);
                if send_schema(alloc, &shape, &mut out).is_err() {
                    return Err(Fail::new(format_args!("no schema was written")));
                }
                String::from_utf8_lossy(alloc, out.as_slice())?
            }
            Err(said) => said,
        };
        if said.as_str() != wanted {
            return Err(Fail::new(format_args!("{said:?} in place of {wanted:?}")));
        }
    }
    Ok(())
}

// The reasons in pictures, each with the place before it, or `right`.
fn reasons(alloc: Global, is_right: bool, said: &str) -> Result<String, AllocError> {
    let mut text = String::from_str(alloc, if is_right { "right" } else { "" })?;
    for line in said.lines() {
        if let Some((_, place)) = line.split_once(" --> ") {
            text.push_str(place)?;
            text.push_str(" ")?;
        }
        if let Some((_, reason)) = line.split_once(" = reason: ") {
            text.push_str(reason)?;
            text.push_str(";")?;
        }
    }
    Ok(text)
}

// A template, the language and the functions that it has, and where it may fail on a list of texts at `items`.
const ROWS: &[(&str, Option<Escape>, bool, &str)] = &[
    ("{% for x in items %}{{ x }}{% endfor %}", None, false, "right"),
    ("{{ items }}", None, false, "own:1:4 may have no text: the value is a list of text;"),
    ("{{ upper(first(items)) }}", None, true, "own:1:4 may refuse its arguments: text or none;"),
    ("{{ join(items, \"-\") }}", None, true, "right"),
    ("{% for x in items %}{{ x }}{% endfor %}", Some(Escape::Html), false, "right"),
    ("{% for x in items %}{{ x }}{% endfor %}", Some(Escape::Json), true, "right"),
    ("{% for x in items %}{{ x }}{% endfor %}", Some(Escape::Yaml), false, "right"),
    (
        "{% for x in items %}{{ x }}{% endfor %}",
        Some(Escape::Shell),
        false,
        "own:1:24 may have no text: the value is text;",
    ),
    (
        "{% for x in items %}{{ x | verbatim }}{% endfor %}",
        None,
        false,
        "own:1:28 nothing is known of what this function takes;",
    ),
    ("{% include \"part\" with items %}", None, false, "part:1:4 may be missing: the value is a list of text;"),
    ("{% include \"own\" %}", None, false, "right"),
    ("{{ names }}{{ prices }}", None, false, "own:1:4 may be missing: the value is a map with items;own:1:15 may be missing: the value is a map with items;"),
];

#[test]
fn templates(rt: HostRuntime) -> Result<(), Fail> {
    let alloc = rt.alloc();
    let shape = match shape_by(&rt, None, ["-"].as_slice(), "\"a\"\n")? {
        Ok(shape) => shape,
        Err(said) => return Err(Fail::new(format_args!("{said}"))),
    };
    for (source, escape, standard, wanted) in ROWS {
        let folder = [("part", "{{ name }}")];
        let on = OnShape {
            folder: folder.as_slice(),
            escape: *escape,
            standard: *standard,
            shape: &shape,
        };
        let mut err = Vec::new(alloc);
        let is_right = fits(alloc, on, ("own", *source), false, &mut err)?;
        let said = String::from_utf8_lossy(alloc, err.as_slice())?;
        let said = reasons(alloc, is_right, said.as_str())?;
        assert_eq!(&rt; said.as_str(), *wanted, "of {source}");
    }
    Ok(())
}

#[test]
fn pages(rt: HostRuntime) -> Result<(), Fail> {
    let alloc = rt.alloc();
    let shape = Shape::of(alloc, &value(alloc, "{\"a\": 1}")?)?;
    let sources = [("one", "{{ a }}"), ("two", "{{ other }}")];
    for (names, wanted) in [
        (["one", "one"], "right"),
        (["one", "two"], "two:1:4 may be missing: the value is a map with a;"),
    ] {
        let options = Options {
            escape: None,
            syntax: Syntax::default(),
            depth: 64,
            functions: false,
            limits: Limits {
                steps: None,
                output: None,
                values: None,
            },
        };
        let said = match check_pages(alloc, options, sources.as_slice(), &shape, names.as_slice()) {
            Ok(text) => reasons(alloc, true, text.as_str())?,
            Err(failure) => reasons(alloc, false, failure.into_text(alloc)?.as_str())?,
        };
        assert_eq!(&rt; said.as_str(), wanted, "of {names:?}");
    }
    Ok(())
}

#[test]
fn pictures(rt: HostRuntime) -> Result<(), Fail> {
    let alloc = rt.alloc();
    for (picture, wanted) in [
        (" 1 | {{ a }}\n   |    ^\n", " 1 | {{ a }}\n   |    ^\n"),
        (" 1 | \u{1b}{{ a }}\n   |     ^\n", " 1 | \\u{1b}{{ a }}\n   |          ^\n"),
        ("one\n\nanother", "one\n\nanother\n"),
        ("", ""),
    ] {
        let said = shown(alloc, picture)?;
        assert_eq!(&rt; said.as_str(), wanted, "of {picture:?}");
    }
    Ok(())
}
