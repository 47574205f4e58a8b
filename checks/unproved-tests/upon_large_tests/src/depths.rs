// How deep values are: as deep as memory goes, in what a template makes, in what includes make of it one after the other,
// and in what a function gives.
ghost use Rattle.upon_large_tests.specs.Callables.{listed};

use std::alloc::{AllocError, Global};
use std::borrow::CowStr;
use std::test::Fail;
use upon::functions::{Call1V, Fn1V};
use upon::{Engine, Value, value};
use upon_examples::answers::line_of;

// A list of its argument.
#[derive(Drop)]
struct ListOf;

impl Call1V<Result<Vec<Value>, AllocError>> for ListOf {
    ghost meaning = { λ _. listed };

    fn call(&self, alloc: Global, first: &Value) -> Result<Vec<Value>, AllocError> {
        Ok(vec![in alloc; first.try_clone()?]?)
    }
}

// An engine with this function, and templates of which each includes the next one with a deeper value; the last one shows
// what is at the bottom of three levels.
fn engine<'e>(alloc: Global, includes: usize) -> Result<Engine<'e>, Fail> {
    let mut engine = Engine::new(alloc);
    engine.set_max_include_depth(2_000);
    let function = Box::new(alloc, Fn1V::new(ListOf))?;
    engine.add_function(CowStr::Borrowed("list"), function)?;
    for number in 0..includes {
        let next = number.wrapping_add(1);
        let name = format!(in alloc; "t{number}")?;
        let source = format!(in alloc; "{{% include \"t{next}\" with {{\"a\": [a]}} %}}")?;
        engine.add_template(CowStr::Owned(name), CowStr::Owned(source))?;
    }
    let last = format!(in alloc; "t{includes}")?;
    engine.add_template(
        CowStr::Owned(last),
        CowStr::Borrowed("{% for x in a.0.0 %}x{% endfor %}"),
    )?;
    Ok(engine)
}

/// A text before the begins, a begin, the text between, an end, and the text after the ends.
type Row = (
    &'static str,
    &'static str,
    &'static str,
    &'static str,
    &'static str,
);

const ROWS: &[Row] = &[
    ("{% for x in ", "[", "1", "]", " %}x{% endfor %}"),
    ("{% for k, v in ", "{\"a\": ", "1", "} ", " %}x{% endfor %}"),
    ("{% for x in ", "[{\"a\": ", "1", "} ]", " %}x{% endfor %}"),
    ("", "{% with [a] as a %}", "x", "{% endwith %}", ""),
    ("", "{% with {\"a\": a} as a %}", "x", "{% endwith %}", ""),
    ("", "{% for a in [[a]] %}", "x", "{% endfor %}", ""),
    ("{% if ", "list(", "1", ")", " %}x{% endif %}"),
    ("{% if a", " | list", "", "", " %}x{% endif %}"),
    // What is made is copied into a list, and that is looped over.
    (
        "{% with ",
        "[",
        "1",
        "]",
        " as v %}{% with [v] as w %}{% for x in w %}x{% endfor %}{% endwith %}{% endwith %}",
    ),
];

// How deep values are: what a byte has room for, what upon writes too, and more levels than a copy takes calls.
const DEPTHS: &[usize] = &[1, 31, 32, 33, 63, 64, 65, 255, 256, 257, 300, 1_000]; // ./test: &[33, 65, 257]

fn add(text: &mut String, part: &str, times: usize) -> Result<(), AllocError> {
    for _ in 0..times {
        text.push_str(part)?;
    }
    Ok(())
}

fn source(alloc: Global, row: &Row, times: usize) -> Result<String, AllocError> {
    let (before, begin, between, end, after) = row;
    let mut text = String::from_str(alloc, before)?;
    add(&mut text, begin, times)?;
    text.push_str(between)?;
    add(&mut text, end, times)?;
    text.push_str(after)?;
    Ok(text)
}

// The source, in an engine with so many includes in each other, answers what is wanted.
fn answers(alloc: Global, includes: usize, source: &str, wanted: &str) -> Result<(), Fail> {
    let mut deep = Value::from(1);
    for _ in 0..300 {
        deep = Value::List(vec![in alloc; deep]?);
    }
    let context = value! { in alloc; a: 1, deep: deep }?;
    let line = line_of(alloc, engine(alloc, includes)?.render_text(source, &context))?;
    if line.as_str() != wanted {
        return Err(Fail::new(format_args!(
            "{line:?} in place of {wanted:?}, of {source}"
        )));
    }
    Ok(())
}

#[test]
fn deep_values(rt: HostRuntime) -> Result<(), Fail> {
    let alloc = rt.alloc();
    for row in ROWS {
        for depth in DEPTHS {
            answers(alloc, 0, source(alloc, row, *depth)?.as_str(), "x")?;
        }
    }
    Ok(())
}

// Each include makes the value deeper by one list.
#[test]
fn deeper_values(rt: HostRuntime) -> Result<(), Fail> {
    let alloc = rt.alloc();
    for includes in DEPTHS {
        let source = "{% include \"t0\" with {\"a\": [[[1]]]} %}";
        answers(alloc, *includes, source, "x")?;
    }
    Ok(())
}

// What is at the bottom of a list is shown by a path as long as the list is deep.
#[test]
fn paths(rt: HostRuntime) -> Result<(), Fail> {
    let alloc = rt.alloc();
    for depth in DEPTHS {
        let list = ("{% with ", "[", "\"x\"", "]", " as v %}{{ v");
        let mut source = source(alloc, &list, *depth)?;
        add(&mut source, ".0", *depth)?;
        source.push_str(" }}{% endwith %}")?;
        answers(alloc, 0, source.as_str(), "x")?;
    }
    Ok(())
}

// A context may be as deep, and so may what holds it.
#[test]
fn contexts(rt: HostRuntime) -> Result<(), Fail> {
    let alloc = rt.alloc();
    for source in [
        "{% for x in deep %}x{% endfor %}",
        "{% with deep as x %}x{% endwith %}",
        "{% with [deep] as x %}x{% endwith %}",
        "{% if deep | list %}x{% endif %}",
        "{% include \"t0\" with {\"a\": deep} %}",
    ] {
        answers(alloc, 3, source, "x")?;
    }
    Ok(())
}
