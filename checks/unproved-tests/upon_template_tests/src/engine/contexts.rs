// Contexts that serde writes: rendered by `render`, or reported before anything is written.
use serde::Serialize;
use std::alloc::{AllocError, Global};
use std::borrow::CowStr;
use std::process::Abort;
use std::test::Fail;
use upon::error::ErrorKind;
use upon::render::OneTemplate;
use upon::{Engine, Result, Template, value};
use upon_examples::answers::line_of;

#[derive(Drop, Serialize)]
struct Order<'a> {
    customer: &'a str,
    state: State,
    lines: Vec<Option<Line>>,
}

#[derive(Drop, Serialize)]
enum State {
    #[serde(rename = "paid")]
    Paid,
}

#[derive(Drop, Serialize)]
enum Line {
    Pieces(u8),
    Parcel { weight: u16, is_express: bool },
}

fn order_of_ann(alloc: Global) -> Result<Order<'static>> {
    let parcel = Line::Parcel {
        weight: 900,
        is_express: true,
    };
    Ok(Order {
        customer: "Ann",
        state: State::Paid,
        lines: vec![in alloc; Some(Line::Pieces(3)), None, Some(parcel)]?,
    })
}

// An engine with a template for an order, and one for a line of it.
fn shop<'e>(alloc: Global) -> Result<Engine<'e>> {
    let mut engine = Engine::new(alloc);
    let order =
        "{{ customer }} ({{ state }}):{% for line in lines %} {% include \"line\" %}{% endfor %}";
    engine.add_template(CowStr::Borrowed("order"), CowStr::Borrowed(order))?;
    let line = "{% if not line %}-{% else if line?.Pieces %}{{ line.Pieces }}{% else -%}
{{ line.Parcel.weight }} g{% if line.Parcel.is_express %}!{% endif %}{% endif %}";
    engine.add_template(CowStr::Borrowed("line"), CowStr::Borrowed(line))?;
    Ok(engine)
}

// What the template of a name answers.
fn named<S: Serialize + Drop>(
    alloc: Global,
    engine: &Engine<'_>,
    name: &str,
    context: S,
) -> std::result::Result<String, AllocError> {
    match engine.get_template(name) {
        Some(template) => line_of(alloc, template.render(context).to_string()),
        None => String::from_str(alloc, "no template"),
    }
}

#[test]
fn structs(rt: HostRuntime) -> std::result::Result<(), Fail> {
    let alloc = rt.alloc();
    let engine = shop(alloc)?;
    let order = order_of_ann(alloc)?;
    let text = named(alloc, &engine, "order", &order)?;
    assert_eq!(&rt; text.as_str(), "Ann (paid): 3 - 900 g!");
    let template = engine.compile(CowStr::Borrowed("{{ lines.2.Parcel.weight }}"))?;
    let text = template.render(&engine, &order).to_string()?;
    assert_eq!(&rt; text.as_str(), "900");
    let text = template.render(&engine, order).to_string()?;
    assert_eq!(&rt; text.as_str(), "900");
    Ok(())
}

#[test]
fn values(rt: HostRuntime) -> std::result::Result<(), Fail> {
    let alloc = rt.alloc();
    let engine = Engine::new(alloc);
    let template = engine.compile(CowStr::Borrowed("{{ a.1.b }}"))?;
    let context = value! { in alloc; a: [1, {b: true}], c: None }?;
    let text = template.render(&engine, &context).to_string()?;
    assert_eq!(&rt; text.as_str(), "true");
    let mut text = String::new(alloc);
    template.render(&engine, &context).to_output(&mut text)?;
    assert_eq!(&rt; text.as_str(), "true");
    let mut bytes = Vec::new(alloc);
    template.render(&engine, context).to_writer(&mut bytes)?;
    assert_eq!(&rt; bytes.as_slice(), "true".as_bytes());
    Ok(())
}

#[test]
fn missing_names(rt: HostRuntime) -> std::result::Result<(), Fail> {
    let alloc = rt.alloc();
    let engine = shop(alloc)?;
    let line = named(alloc, &engine, "order", ())?;
    let wanted = "render error: not found in this scope at 3..11 in order";
    assert_eq!(&rt; line.as_str(), wanted);
    let line = named(alloc, &engine, "line", 5u8)?;
    let wanted = "render error: not found in this scope at 10..14 in line";
    assert_eq!(&rt; line.as_str(), wanted);
    Ok(())
}

// The rendering ends with serde's error of this reason, which has no place.
fn is_refusal<T: Drop>(rt: &impl Abort, rendered: Result<T>, reason: &str) {
    match rendered {
        Ok(_) => panic!(rt; "rendered where {reason} is wanted"),
        Err(error) => {
            assert!(rt; matches!(error.kind(), ErrorKind::Serialize), "{error}");
            assert_eq!(rt; error.reason(), Some(reason));
            assert!(rt; error.place().is_none());
            assert!(rt; error.template_name().is_none());
        }
    }
}

// Nothing is written of this context: to no text, output or writer.
fn is_refused<S: Serialize + Drop + Copy>(
    rt: &impl Abort,
    alloc: Global,
    context: S,
    reason: &str,
) -> std::result::Result<(), Fail> {
    let engine = shop(alloc)?;
    let template = engine.compile(CowStr::Borrowed("a"))?;
    is_refusal(rt, template.render(&engine, context).to_string(), reason);
    let mut text = String::new(alloc);
    let end = template.render(&engine, context).to_output(&mut text);
    is_refusal(rt, end, reason);
    assert!(rt; text.is_empty());
    let mut bytes = Vec::new(alloc);
    let end = template.render(&engine, context).to_writer(&mut bytes);
    is_refusal(rt, end, reason);
    assert!(rt; bytes.is_empty());
    let Some(named) = engine.get_template("order") else {
        return Err(Fail::new("no template"));
    };
    is_refusal(rt, named.render(context).to_string(), reason);
    Ok(())
}

#[derive(Clone, Copy, Drop, Serialize)]
struct Reading {
    sensor: u8,
    degrees: f64,
}

#[test]
fn no_values(rt: HostRuntime) -> std::result::Result<(), Fail> {
    let alloc = rt.alloc();
    let reading = Reading {
        sensor: 1,
        degrees: 20.5,
    };
    let reason = "floating point numbers are not supported";
    is_refused(&rt, alloc, reading, reason)?;
    let reason = "out of range integral type conversion attempted";
    is_refused(&rt, alloc, Some(u64::MAX), reason)?;
    is_refused(&rt, alloc, 1i128, "i128 is not supported")
}

#[test]
fn depths(rt: HostRuntime) -> std::result::Result<(), Fail> {
    let alloc = rt.alloc();
    let engine = shop(alloc)?;
    let order = order_of_ann(alloc)?;
    let Some(template) = engine.get_template("order") else {
        return Err(Fail::new("no template"));
    };
    for (depth, wanted) in [
        (1, "render error: reached maximum include depth (1)"),
        (2, "Ann (paid): 3 - 900 g!"),
    ] {
        let text = template
            .render(&order)
            .with_max_include_depth(depth)
            .to_string();
        assert_eq!(&rt; line_of(alloc, text)?.as_str(), wanted);
    }
    Ok(())
}

// The text of a template on an order, with another template in place of each that it includes.
fn with_same(
    engine: &Engine<'_>,
    template: &Template<'_>,
    included: &Template<'_>,
    order: &Order<'_>,
) -> Result<String> {
    template
        .render(engine, order)
        .with_template_fn(OneTemplate::new(included))
        .to_string()
}

#[test]
fn templates_of_a_function(rt: HostRuntime) -> std::result::Result<(), Fail> {
    let alloc = rt.alloc();
    let engine = Engine::new(alloc);
    let template = engine.compile(CowStr::Borrowed("{% include \"a\" %} {% include \"b\" %}"))?;
    let included = engine.compile(CowStr::Borrowed("{{ customer }}"))?;
    let text = with_same(&engine, &template, &included, &order_of_ann(alloc)?)?;
    assert_eq!(&rt; text.as_str(), "Ann Ann");
    Ok(())
}
