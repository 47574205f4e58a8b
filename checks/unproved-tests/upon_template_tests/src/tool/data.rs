// The context that words of a call say: formats and keys, what is set over what, and each refusal.
use std::alloc::Global;
use std::test::Fail;
use upon_data::lines::json;
use upon_tool_data::context::context;
use upon_tool_data::words::{DataWords, check};
use upon_types::value::Value;

// The data of standard input alone.
fn from_input<'a, 'w>(files: &'w [&'a str], format: Option<&'a str>) -> DataWords<'a, 'w> {
    DataWords {
        env: false,
        files,
        format,
        values: [].as_slice(),
        texts: [].as_slice(),
    }
}

// Values that are set over standard input.
fn set_over<'a, 'w>(values: &'w [&'a str], texts: &'w [&'a str]) -> DataWords<'a, 'w> {
    DataWords {
        env: false,
        files: ["-"].as_slice(),
        format: None,
        values,
        texts,
    }
}

// The value of a text of JSON.
fn value(alloc: Global, text: &str) -> Result<Value, Fail> {
    json(alloc, text).map_err(|_| Fail::new(format_args!("no JSON: {text}")))
}

// The words say the value that is given as JSON, or are refused with the text that is given.
fn says(
    rt: &HostRuntime,
    words: &DataWords<'_, '_>,
    input: &str,
    wanted: Result<&str, &str>,
) -> Result<(), Fail> {
    let alloc = rt.alloc();
    let mut input = input.as_bytes();
    let said = match (context(rt, words, &mut input), wanted) {
        (Ok(got), Ok(wanted)) => {
            if got == value(alloc, wanted)? {
                return Ok(());
            }
            format!(in alloc; "{got:?}")?
        }
        (Ok(got), Err(_)) => format!(in alloc; "{got:?}")?,
        (Err(fault), _) => format!(in alloc; "{fault}")?,
    };
    if wanted == Err(said.as_str()) {
        Ok(())
    } else {
        Err(Fail::new(format_args!("{said} in place of {wanted:?}")))
    }
}

#[test]
fn formats(rt: HostRuntime) -> Result<(), Fail> {
    for (file, format, input, wanted) in [
        ("-", None, "{\"a\": 1}", "{\"a\": 1}"),
        ("-", Some("json"), "[1, 2]", "{\"items\": [1, 2]}"),
        ("-", Some("jsonl"), "1\n\n{}\n", "{\"items\": [1, {}]}"),
        ("-", Some("csv"), "a,b\n1,2\n", "{\"items\": [{\"a\": \"1\", \"b\": \"2\"}]}"),
        ("-", Some("toml"), "a = 1\n[b]\nc = true\n", "{\"a\": 1, \"b\": {\"c\": true}}"),
        ("k=-", None, "1", "{\"k\": 1}"),
        ("k=-", None, "{\"a\": 1}", "{\"k\": {\"a\": 1}}"),
        ("k=-", Some("csv"), "a\n1\n", "{\"k\": [{\"a\": \"1\"}]}"),
        ("a.b=-", None, "null", "{\"a.b\": null}"),
    ] {
        let files = [file];
        says(&rt, &from_input(files.as_slice(), format), input, Ok(wanted))?;
    }
    says(&rt, &from_input([].as_slice(), None), "unread", Ok("{}"))
}

#[test]
fn environment(rt: HostRuntime) -> Result<(), Fail> {
    for (input, text, wanted) in [
        ("{\"env\": {\"a\": 1}}", "b=", "{\"b\": \"\", \"env\": {\"a\": 1}}"),
        ("{\"env\": [], \"a\": 1}", "env=x", "{\"a\": 1, \"env\": \"x\"}"),
        ("{\"a\": 1}", "env=", "{\"a\": 1, \"env\": \"\"}"),
    ] {
        let texts = [text];
        let words = DataWords {
            env: true,
            ..set_over([].as_slice(), texts.as_slice())
        };
        says(&rt, &words, input, Ok(wanted))?;
    }
    Ok(())
}

#[test]
fn settings(rt: HostRuntime) -> Result<(), Fail> {
    let input = "{\"a\": {\"b\": 1}, \"c\": 2}";
    for (values, texts, wanted) in [
        (["a=1", "d=[1]"], ["c=x", "e=y=z"], "{\"a\": 1, \"c\": \"x\", \"d\": [1], \"e\": \"y=z\"}"),
        (["a.b=2", "a.d=3"], ["a.e=", "c=2"], "{\"a\": {\"b\": 2, \"d\": 3, \"e\": \"\"}, \"c\": \"2\"}"),
        (["c={}", "c.d.e=1"], ["c.d.f=1", "c.g=1"], "{\"a\": {\"b\": 1}, \"c\": {\"d\": {\"e\": 1, \"f\": \"1\"}, \"g\": \"1\"}}"),
        (["a=1", "a=2"], ["c=1", "c=2"], "{\"a\": 2, \"c\": \"2\"}"),
        (["a= null ", "c=1.50"], ["=x", "e=1"], "{\"\": \"x\", \"a\": null, \"c\": \"1.50\", \"e\": \"1\"}"),
    ] {
        let words = set_over(values.as_slice(), texts.as_slice());
        says(&rt, &words, input, Ok(wanted))?;
    }
    Ok(())
}

#[test]
fn refused_files(rt: HostRuntime) -> Result<(), Fail> {
    for (file, format, input, wanted) in [
        ("-", None, "{\"a\":\n 01}", "-: invalid JSON at line 2 column 2"),
        ("-", Some("jsonl"), "{}\n{", "-: EOF while parsing at line 2 column 1"),
        ("-", Some("csv"), "a,b\n1,2\n3\n", "-: 1 fields in place of 2 at line 3 column 1"),
        ("k=-", Some("toml"), "a = 1\na = 2\n", "-: duplicate key at line 2 column 1"),
        ("-", None, "1", "-: neither an object nor a list"),
        ("-", None, "\"x\"", "-: neither an object nor a list"),
    ] {
        let files = [file];
        says(&rt, &from_input(files.as_slice(), format), input, Err(wanted))?;
    }
    Ok(())
}

#[test]
fn refused_settings(rt: HostRuntime) -> Result<(), Fail> {
    let input = "{\"a\": {\"b\": 1}, \"c\": 2}";
    for (values, texts, wanted) in [
        (["a", "b"], ["c", "d"], "--set-json wants KEY=JSON, not a"),
        (["a=1", "b=1"], ["c=1", "d"], "--set wants KEY=TEXT, not d"),
        (["a=1", "a.b=1"], ["c=1", "c=1"], "a.b=1: a key before the last has a value that is no map"),
        (["a.d=1", "e=1"], ["c.d=x", "f=1"], "c.d=x: a key before the last has a value that is no map"),
        (["a=[1", "e=1"], ["c=x", "f=1"], "--set-json a=[1: EOF while parsing at line 1 column 2"),
        (["a=1", "c=1"], ["=x", ".=y"], ".=y: a key before the last has a value that is no map"),
        (["a=x", "e=1"], ["c=x", "f=1"], "--set-json a=x: invalid JSON at line 1 column 1"),
    ] {
        says(&rt, &set_over(values.as_slice(), texts.as_slice()), input, Err(wanted))?;
    }
    Ok(())
}

#[test]
fn words_that_are_refused(rt: HostRuntime) -> Result<(), Fail> {
    let alloc = rt.alloc();
    let twice = "standard input can be read only once";
    for (is_taken, files, value, text, wanted) in [
        (false, ["-", "a.json"], "a=1", "a=", ""),
        (false, ["a=b.json", "k=-"], "a=1", "=", ""),
        (false, ["-", "-"], "a=1", "a=", twice),
        (false, ["-", "k=-"], "a=1", "a=", twice),
        (false, ["k=-", "=-"], "a=1", "a=", ""),
        (false, ["k=-", "a/k=-"], "a=1", "a=", ""),
        (true, ["-", "a"], "a=1", "a=", twice),
        (true, ["a", "k=-"], "a", "a=", twice),
        (true, ["a", "b"], "a=1", "a=", ""),
        (false, ["a", "-"], "a", "b", "--set-json wants KEY=JSON, not a"),
        (false, ["a", "-"], "a=", "b", "--set wants KEY=TEXT, not b"),
    ] {
        let (values, texts) = ([value], [text]);
        let words = DataWords {
            env: false,
            files: files.as_slice(),
            format: None,
            values: values.as_slice(),
            texts: texts.as_slice(),
        };
        let said = match check(&words, is_taken) {
            Ok(()) => String::new(alloc),
            Err(fault) => format!(in alloc; "{fault}")?,
        };
        if said.as_str() != wanted {
            return Err(Fail::new(format_args!("{said} in place of {wanted}, of {files:?}")));
        }
    }
    Ok(())
}
