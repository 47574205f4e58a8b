// What templates show of contexts from JSON, and which texts are refused, with what is said of them.
use std::alloc::{AllocError, Global};
use std::test::Fail;
use upon::Engine;
use upon_json::context::{DataFault, context};
use upon_examples::answers::answer;

// What is said of data that are no context.
fn said_of(alloc: Global, fault: &DataFault) -> Result<String, AllocError> {
    match fault {
        DataFault::Refused(refusal) => format!(in alloc; "{refusal}"),
        DataFault::NotObject => String::from_str(alloc, "not an object"),
        DataFault::OutOfMemory => String::from_str(alloc, "out of memory"),
    }
}

// A template shows this on the context of a text of JSON; or the text is refused, and this is said of it.
fn shows(
    alloc: Global,
    json: &str,
    set: &[(&str, &str)],
    source: &str,
    wanted: &str,
) -> Result<(), Fail> {
    let engine = Engine::new(alloc);
    let line = match context(alloc, Some(json), set) {
        Ok(value) => answer(alloc, &engine, source, &value)?,
        Err(fault) => said_of(alloc, &fault)?,
    };
    if line.as_str() == wanted {
        Ok(())
    } else {
        Err(Fail::new(format_args!("{line:?} in place of {wanted:?}, of {json}")))
    }
}

// Lists in each other, so many.
fn nested(alloc: Global, depth: usize) -> Result<String, AllocError> {
    let mut text = String::new(alloc);
    for _ in 0..depth {
        text.push('[')?;
    }
    for _ in 0..depth {
        text.push(']')?;
    }
    Ok(text)
}

#[test]
fn values(rt: HostRuntime) -> Result<(), Fail> {
    let alloc = rt.alloc();
    for (json, source, wanted) in [
        ("{}", "text", "text"),
        (
            "{\"a\": 1, \"b\": \"x\", \"c\": true}",
            "{{ a }} {{ b }} {{ c }}",
            "1 x true",
        ),
        (
            "{\"a\": [1, 2], \"b\": {\"c\": -3}}",
            "{{ a.1 }} {{ b.c }}",
            "2 -3",
        ),
        (
            "{\"a\": null}",
            "{% if a %}yes{% else %}no{% endif %}",
            "no",
        ),
        ("{\"a\": 1, \"b\": 5, \"a\": 2}", "{{ a }}", "2"),
        ("{\"a\": {\"b\": 1, \"b\": 2}}", "{{ a.b }}", "2"),
        ("{\"a\": \"\\u00e9\\ud83d\\ude00\"}", "{{ a }}", "é😀"),
        ("\u{feff}{\"a\": 1}", "{{ a }}", "1"),
    ] {
        shows(alloc, json, &[], source, wanted)?;
    }
    Ok(())
}

// The keys of an object rise, whatever their order in the text.
#[test]
fn orders(rt: HostRuntime) -> Result<(), Fail> {
    shows(
        rt.alloc(),
        "{\"m\": {\"b\": 1, \"c\": 2, \"a\": 3, \"b\": 4}}",
        &[],
        "{% for key, value in m %}{{ key }}{{ value }} {% endfor %}",
        "a3 b4 c2 ",
    )
}

// A number is an integer of 64 bits, or the text that spells it.
#[test]
fn numbers(rt: HostRuntime) -> Result<(), Fail> {
    let alloc = rt.alloc();
    for (number, shown) in [
        ("0", "0"),
        ("-0", "0"),
        ("-9223372036854775808", "-9223372036854775808"),
        ("9223372036854775807", "9223372036854775807"),
        ("9223372036854775808", "9223372036854775808"),
        ("-9223372036854775809", "-9223372036854775809"),
        (
            "123456789012345678901234567890",
            "123456789012345678901234567890",
        ),
        ("19.90", "19.90"),
        ("-0.0", "-0.0"),
        ("1e3", "1e3"),
        ("1E+999", "1E+999"),
    ] {
        let json = format!(in alloc; "{{\"a\": {number}}}")?;
        shows(alloc, json.as_str(), &[], "{{ a }}", shown)?;
    }
    Ok(())
}

// An integer is true unless it is 0, and a text is true unless it is empty.
#[test]
fn truths_of_numbers(rt: HostRuntime) -> Result<(), Fail> {
    let alloc = rt.alloc();
    for (number, shown) in [
        ("0", "no"),
        ("-0", "no"),
        ("1", "yes"),
        ("0.0", "yes"),
        ("0e0", "yes"),
    ] {
        let json = format!(in alloc; "{{\"a\": {number}}}")?;
        let source = "{% if a %}yes{% else %}no{% endif %}";
        shows(alloc, json.as_str(), &[], source, shown)?;
    }
    Ok(())
}

#[test]
fn lists(rt: HostRuntime) -> Result<(), Fail> {
    let alloc = rt.alloc();
    let source = "{% for item in items %}{{ item }},{% endfor %}";
    shows(alloc, "[1, \"x\", 2.5]", &[], source, "1,x,2.5,")?;
    shows(alloc, "[]", &[], source, "")?;
    let set = [("items", "text")];
    shows(alloc, "[1]", &set, "{{ items }}", "text")
}

#[test]
fn texts_are_set_over_it(rt: HostRuntime) -> Result<(), Fail> {
    let alloc = rt.alloc();
    let set = [("b", "x"), ("c", "y"), ("c", "z")];
    shows(
        alloc,
        "{\"a\": 1, \"b\": 2}",
        &set,
        "{{ a }} {{ b }} {{ c }}",
        "1 x z",
    )
}

#[test]
fn refusals(rt: HostRuntime) -> Result<(), Fail> {
    let alloc = rt.alloc();
    for (json, wanted) in [
        ("", "EOF while parsing at line 1 column 0"),
        ("{", "EOF while parsing at line 1 column 1"),
        ("[1,", "EOF while parsing at line 1 column 3"),
        (
            "{\"a\": 1,\n \"b\": \"x",
            "EOF while parsing at line 2 column 7",
        ),
        ("[1, 2,]", "invalid JSON at line 1 column 7"),
        ("{\"a\": 1,}", "invalid JSON at line 1 column 9"),
        ("{\"a\": 01}", "invalid JSON at line 1 column 7"),
        ("{\"a\": 1.}", "invalid JSON at line 1 column 7"),
        ("{\"a\":\n +1}", "invalid JSON at line 2 column 2"),
        ("{\"a\": \"\\ud800\"}", "invalid JSON at line 1 column 7"),
        ("{\"a\": 1} x", "invalid JSON at line 1 column 10"),
        ("\u{feff}\n{,}", "invalid JSON at line 2 column 2"),
        ("\"text\"", "not an object"),
        ("1", "not an object"),
        ("null", "not an object"),
    ] {
        shows(alloc, json, &[], "", wanted)?;
    }
    Ok(())
}

#[test]
fn depths(rt: HostRuntime) -> Result<(), Fail> {
    let alloc = rt.alloc();
    shows(alloc, nested(alloc, 128)?.as_str(), &[], "x", "x")?;
    let too_deep = nested(alloc, 129)?;
    let wanted = "nested too deep at line 1 column 129";
    shows(alloc, too_deep.as_str(), &[], "x", wanted)?;
    let unended = format!(in alloc; "\n{too_deep}x")?;
    let wanted = "nested too deep at line 2 column 129";
    shows(alloc, unended.as_str(), &[], "x", wanted)
}
