// Ten thousand generated templates, each on the shape of three samples: one that is accepted is rendered on each of these.
use crate::data::{Kind, Random, add_map, value_of};
use crate::said::{depth_of, engine_of, said_by};
use crate::texts::Writer;
use std::alloc::{AllocError, Global};
use std::test::Fail;
use upon::{Engine, Value};
use upon_shape::shape::Shape;

const TEMPLATES: u64 = 10_000; // ./test: 1_000

// The numbers that docs/CHECKED.md has: of these so many are accepted; so many are not, and failed on no sample.
const COUNTS: (usize, usize) = (1082, 318); // ./test: (105, 33)

// What came of a template: whether it is accepted, and whether a rendering of it failed.
#[derive(Clone, Copy)]
struct Outcome {
    is_accepted: bool,
    has_failed: bool,
}

fn samples_of(
    alloc: Global,
    random: &mut Random,
    kinds: &[Kind],
    root: usize,
) -> Result<Vec<Value>, AllocError> {
    let mut samples = Vec::new(alloc);
    for _ in 0..3 {
        samples.push(value_of(alloc, random, kinds, root)?)?;
    }
    Ok(samples)
}

fn text_of(
    alloc: Global,
    random: Random,
    kinds: &[Kind],
    root: usize,
    levels: usize,
) -> Result<String, AllocError> {
    let mut writer = Writer::new(alloc, random, kinds, root);
    writer.statements(levels)?;
    Ok(writer.text)
}

// Whether a rendering ends with a fault, but that includes are too deep.
fn has_fault(engine: &Engine<'_>, sample: &Value) -> bool {
    match engine.render_template("main", sample) {
        Some(Ok(_)) => false,
        Some(Err(error)) => !is_too_deep(error.reason()),
        None => true,
    }
}

fn is_too_deep(reason: Option<&str>) -> bool {
    match reason {
        Some(reason) => reason.starts_with("reached maximum include depth"),
        None => false,
    }
}

fn outcome_of(alloc: Global, engine: &Engine<'_>, samples: &[Value]) -> Result<Outcome, AllocError> {
    let shape = Shape::of_samples(alloc, samples)?;
    let said = said_by(alloc, engine, &shape)?;
    let mut has_failed = false;
    for sample in samples {
        has_failed |= has_fault(engine, sample);
    }
    Ok(Outcome {
        is_accepted: said.as_str() == "accepted",
        has_failed,
    })
}

// Whether a rendering fails, for whatever reason, where includes may be just as deep as is said to suffice.
fn fails_within(alloc: Global, engine: &mut Engine<'_>, samples: &[Value]) -> Result<bool, AllocError> {
    let shape = Shape::of_samples(alloc, samples)?;
    let Some(depth) = depth_of(alloc, engine, &shape)? else {
        return Ok(false);
    };
    engine.set_max_include_depth(depth);
    let mut fails = false;
    for sample in samples {
        fails |= !matches!(engine.render_template("main", sample), Some(Ok(_)));
    }
    Ok(fails)
}

#[test]
fn accepted_ones_end_well(rt: HostRuntime) -> Result<(), Fail> {
    let alloc = rt.alloc();
    let (mut accepted, mut refused) = (0, 0);
    for number in 0..TEMPLATES {
        let mut random = Random::new(number);
        let mut kinds = Vec::new(alloc);
        let root = add_map(alloc, &mut random, &mut kinds, 2)?;
        let samples = samples_of(alloc, &mut random, &kinds, root)?;
        let main = text_of(alloc, random, &kinds, root, 2)?;
        random.below(2);
        let other = text_of(alloc, random, &kinds, root, 1)?;
        let Some(mut engine) = engine_of(alloc, &main, &other)? else {
            return Err(Fail::new(format_args!("no template: {main} {other}")));
        };
        let outcome = outcome_of(alloc, &engine, &samples)?;
        if outcome.is_accepted && outcome.has_failed {
            return Err(Fail::new(format_args!("accepted, and fails: {main} | {other}")));
        }
        if outcome.is_accepted && fails_within(alloc, &mut engine, &samples)? {
            return Err(Fail::new(format_args!("ends within a depth, and fails: {main} | {other}")));
        }
        accepted += outcome.is_accepted as usize;
        refused += (!outcome.is_accepted && !outcome.has_failed) as usize;
    }
    assert_eq!(&rt; (accepted, refused), COUNTS);
    Ok(())
}
