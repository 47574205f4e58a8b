// A fault of a large text is reported as that of a small one, with its picture.
use std::alloc::{AllocError, Global};
use std::borrow::CowStr;
use std::process::Abort;
use std::test::Fail;
use upon::error::ErrorKind;
use upon::{Engine, Error, Value};
use upon_examples::answers::{answer, describe};

// How often the part before a fault is doubled.
const DOUBLED: usize = 14; // ./test: 10

// A part many times over, then an end.
fn before(alloc: Global, part: &str, times: usize, end: &str) -> Result<String, AllocError> {
    let mut text = String::new(alloc);
    for _ in 0..times {
        text.push_str(part)?;
    }
    text.push_str(end)?;
    Ok(text)
}

// The fault of a text's end, after this many bytes.
fn is_reported(
    rt: &impl Abort,
    alloc: Global,
    source: &str,
    message: &str,
    (start, end): (usize, usize),
) -> Result<(), Fail> {
    let line = answer(alloc, &Engine::new(alloc), source, &Value::None)?;
    let wanted = format!(in alloc; "{message} at {start}..{end}")?;
    assert!(rt; line == wanted, "{line}");
    Ok(())
}

#[test]
fn faults_of_large_texts(rt: HostRuntime) -> Result<(), Fail> {
    let alloc = rt.alloc();
    for part in ["x", "x\n", "{# x #}\n"] {
        let mut times = 1usize;
        for _ in 0..DOUBLED {
            times = times.wrapping_mul(2);
            let at = times.wrapping_mul(part.len());
            let place = (at.wrapping_add(3), at.wrapping_add(4));
            let source = before(alloc, part, times, "{{ a }}")?;
            is_reported(
                &rt,
                alloc,
                source.as_str(),
                "render error: not found in this scope",
                place,
            )?;
            let place = (at, at.wrapping_add(2));
            let source = before(alloc, part, times, "}} b")?;
            is_reported(
                &rt,
                alloc,
                source.as_str(),
                "invalid syntax: unexpected end expression",
                place,
            )?;
        }
    }
    Ok(())
}

// The picture of a fault whose line is this long, and its number of columns.
fn shows(rt: &impl Abort, alloc: Global, error: &Error, column: usize) -> Result<(), Fail> {
    let picture = error.pretty(alloc)?;
    let head = format!(in alloc; "render error\n\n  --> <anonymous>:1:{column}\n")?;
    assert!(rt; picture.as_str().starts_with(head.as_str()), "{picture}");
    Ok(())
}

#[test]
fn pictures_of_long_lines(rt: HostRuntime) -> Result<(), Fail> {
    let alloc = rt.alloc();
    let mut times = 1usize;
    for _ in 0..16 {
        times = times.wrapping_mul(2);
        let source = before(alloc, "x", times, "{{ a }}")?;
        match Engine::new(alloc).render_text(source.as_str(), &Value::None) {
            Ok(_) => return Err(Fail::new("no fault")),
            Err(error) => shows(&rt, alloc, &error, times.wrapping_add(4))?,
        }
    }
    Ok(())
}

// A template's name, and a text of a refusal, may be long.
#[test]
fn faults_of_long_names(rt: HostRuntime) -> Result<(), Fail> {
    let alloc = rt.alloc();
    let mut times = 1usize;
    for _ in 0..16 {
        times = times.wrapping_mul(2);
        let name = before(alloc, "n", times, "")?;
        let mut engine = Engine::new(alloc);
        let held = String::from_str(alloc, name.as_str())?;
        engine.add_template(CowStr::Owned(held), CowStr::Borrowed("{{ a }}"))?;
        match engine.render_template(name.as_str(), &Value::None) {
            Some(Err(error)) => {
                let line = describe(alloc, &error)?;
                let wanted = format!(in alloc;
                    "render error: not found in this scope at 3..4 in {name}"
                )?;
                assert!(&rt; line == wanted, "{line}");
            }
            _ => return Err(Fail::new("no fault")),
        }
    }
    Ok(())
}

// A fault may lie at the end of a text, which has no line of its own there.
#[test]
fn faults_at_the_end(rt: HostRuntime) -> Result<(), Fail> {
    let alloc = rt.alloc();
    let mut times = 1usize;
    for _ in 0..14 {
        times = times.wrapping_mul(2);
        let end = times.wrapping_add(2);
        let source = before(alloc, "x", times, "{{")?;
        is_reported(
            &rt,
            alloc,
            source.as_str(),
            "invalid syntax: expected token, found EOF",
            (end, end),
        )?;
    }
    Ok(())
}

// An error that says its kind alone takes a name.
#[test]
fn names_of_bare_errors(rt: HostRuntime) -> Result<(), Fail> {
    let alloc = rt.alloc();
    let mut times = 1usize;
    for _ in 0..12 {
        times = times.wrapping_mul(2);
        let name = before(alloc, "n", times, "")?;
        let bare = Error::from_parts(alloc, ErrorKind::Function, None, None);
        let line = describe(alloc, &bare.with_name(alloc, name.as_str()))?;
        let wanted = format!(in alloc; "function error in {name}")?;
        assert!(&rt; line == wanted, "{line}");
    }
    Ok(())
}
