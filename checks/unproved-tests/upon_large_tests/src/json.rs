// Wide objects and long texts of JSON.
use std::alloc::{AllocError, Global};
use std::process::Abort;
use std::test::Fail;
use upon::Engine;
use upon_json::context::context;
use upon_examples::answers::answer;

// A text many times over.
fn many(alloc: Global, part: &str, times: usize) -> Result<String, AllocError> {
    let mut text = String::new(alloc);
    for _ in 0..times {
        text.push_str(part)?;
    }
    Ok(text)
}

// A template shows this on JSON.
fn shows(
    rt: &impl Abort,
    alloc: Global,
    json: &str,
    source: &str,
    wanted: &str,
) -> Result<(), Fail> {
    let Ok(value) = context(alloc, Some(json), &[]) else {
        return Err(Fail::new("no context"));
    };
    let line = answer(alloc, &Engine::new(alloc), source, &value)?;
    assert!(rt; line.as_str() == wanted, "{line}");
    Ok(())
}

#[test]
fn long_texts(rt: HostRuntime) -> Result<(), Fail> {
    let alloc = rt.alloc();
    let mut times = 1usize;
    for _ in 0..14 {
        times = times.wrapping_mul(2);
        let text = many(alloc, "x", times)?;
        let json = format!(in alloc; "{{\"text\": \"{text}\"}}")?;
        shows(&rt, alloc, json.as_str(), "{{ text }}", text.as_str())?;
    }
    Ok(())
}

#[test]
fn wide_objects(rt: HostRuntime) -> Result<(), Fail> {
    let alloc = rt.alloc();
    let mut json = String::from_str(alloc, "{\"m\": {")?;
    for i in 0..2_000u32 {
        json.push_str(format!(in alloc; "\"k{i}\": {i}, ")?.as_str())?;
    }
    json.push_str("\"last\": [1, 2]}}")?;
    let source = "{{ m.k0 }} {{ m.k1999 }} {{ m.last.1 }}";
    shows(&rt, alloc, json.as_str(), source, "0 1999 2")
}
