// What is said of a template on the shape of a sample, as one line.
use std::alloc::{AllocError, Global};
use std::borrow::CowStr;
use upon::{Engine, Value};
use upon_shape_check::accepted::Accepted;
use upon_shape_check::accepts::accepts;
use upon_shape_check::refusal::{Misfit, Refusal};
use upon_shape_check::declared::Declared;
use upon_shape_check::doubt::Unsure;
use upon_shape::shape::Shape;

// The word of what is not sure.
fn word(unsure: &Unsure<'_>) -> &'static str {
    match unsure {
        Unsure::HasMember(_) => "member",
        Unsure::LoopHasMember => "loop member",
        Unsure::TakesValues(_) => "call",
        Unsure::HasText(_) => "text",
        Unsure::HasItems(_) => "items",
        Unsure::IsIncluded(_, _) => "include",
    }
}

// Misfits, as `member at 3..4 in main`.
fn misfits_said(alloc: Global, misfits: &[Misfit<'_>]) -> Result<String, AllocError> {
    let mut said = String::new(alloc);
    for misfit in misfits {
        let (start, end) = (misfit.doubt.place.m, misfit.doubt.place.n);
        let (word, template) = (word(&misfit.doubt.unsure), misfit.template);
        let separator = if said.is_empty() { "" } else { ", " };
        said.push_str(
            format!(in alloc; "{separator}{word} at {start}..{end} in {template}")?.as_str(),
        )?;
    }
    Ok(said)
}

fn refusal_said(alloc: Global, refusal: Refusal<'_>) -> Result<String, AllocError> {
    match refusal {
        Refusal::NoTemplate => String::from_str(alloc, "no template"),
        Refusal::Misfits(misfits) => misfits_said(alloc, &misfits),
        Refusal::TooDeep(template, place) => {
            let (start, end) = (place.m, place.n);
            format!(in alloc; "too deep at {start}..{end} in {template}")
        }
        Refusal::Memory(error) => Err(error),
    }
}

/// Returns "accepted", or why the template `main` is not accepted on a shape.
pub fn said_by(alloc: Global, engine: &Engine<'_>, shape: &Shape) -> Result<String, AllocError> {
    let declared = Declared::new(alloc, Shape::shown());
    match accepts(alloc, engine, &declared, "main", shape) {
        Ok(_) => String::from_str(alloc, "accepted"),
        Err(refusal) => refusal_said(alloc, refusal),
    }
}

/// Returns the depth within which the template `main` ends on a shape, if it is accepted and one is known.
pub fn depth_of(
    alloc: Global,
    engine: &Engine<'_>,
    shape: &Shape,
) -> Result<Option<usize>, AllocError> {
    let declared = Declared::new(alloc, Shape::shown());
    match accepts(alloc, engine, &declared, "main", shape) {
        Ok(Accepted::EndsWithin(depth)) => Ok(Some(depth)),
        Ok(Accepted::EndsUnlessDeep) => Ok(None),
        Err(Refusal::Memory(error)) => Err(error),
        Err(_) => Ok(None),
    }
}

/// Returns the same of the shape of a sample.
pub fn said_of(
    alloc: Global,
    engine: &Engine<'_>,
    sample: &Value,
) -> Result<String, AllocError> {
    said_by(alloc, engine, &Shape::of(alloc, sample)?)
}

/// Returns an engine with the template `main`, and another one under the name `t`; `None` if a text is no template.
pub fn engine_of(
    alloc: Global,
    main: &str,
    other: &str,
) -> Result<Option<Engine<'static>>, AllocError> {
    let mut engine = Engine::new(alloc);
    for (name, text) in [("main", main), ("t", other)] {
        let text = CowStr::Owned(String::from_str(alloc, text)?);
        if engine.add_template(CowStr::Owned(String::from_str(alloc, name)?), text).is_err() {
            return Ok(None);
        }
    }
    Ok(Some(engine))
}
