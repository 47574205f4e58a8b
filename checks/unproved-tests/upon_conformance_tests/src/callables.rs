// The functions and formatters of the cases, by their names (docs/contributing/CONFORMANCE.md).
ghost use Rattle.upon_conformance_tests.specs.Callables.{none_given, paired};

use std::alloc::{AllocError, Global};
use std::borrow::CowStr;
use upon::fmt::{self, Format, Formatter};
use upon::functions::{Call0, Call1V, Fn0, Fn1, Fn1S, Fn1V, Fn2};
use upon::{Engine, Value};
use upon_examples::callables::{Add, Double, Low, Mute, No};

// A list of its argument, twice.
#[derive(Drop)]
struct Pair;

impl Call1V<Result<Vec<Value>, AllocError>> for Pair {
    ghost meaning = { λ _. paired };

    fn call(&self, alloc: Global, first: &Value) -> Result<Vec<Value>, AllocError> {
        Ok(vec![in alloc; first.try_clone()?, first.try_clone()?]?)
    }
}

// No value.
#[derive(Drop)]
struct Nothing;

impl Call0<()> for Nothing {
    ghost meaning = { none_given };

    fn call(&self, _alloc: Global) {}
}

// What the usual default formatter writes, in angle brackets.
#[derive(Drop)]
struct Bracketed;

impl Format for Bracketed {
    ghost use Rattle.upon_conformance_tests.specs.Callables.{bracketed};

    ghost formats = { λ _. bracketed };

    fn format(&self, f: &mut Formatter, value: &Value) -> fmt::Result {
        f.write_str("<")?;
        fmt::default(f, value)?;
        f.write_str(">")?;
        Ok(())
    }
}

// A word, and then a refusal.
#[derive(Drop)]
struct Stop;

impl Format for Stop {
    ghost use Rattle.upon_conformance_tests.specs.Callables.{stopped};

    ghost formats = { λ _. stopped };

    fn format(&self, f: &mut Formatter, _value: &Value) -> fmt::Result {
        f.write_str("before")?;
        match fmt::Error::from_text(f.allocator(), "stopped") {
            Ok(error) => Err(error),
            Err(_) => Err(fmt::Error::from(std::fmt::Error)),
        }
    }
}

// Adds a formatter, or makes it the default one.
fn add_formatter<'e>(
    engine: &mut Engine<'e>,
    alloc: Global,
    name: &'e str,
    is_default: bool,
) -> Result<(), AllocError> {
    let boxed: Box<dyn Format> = match name {
        "fmt" => Box::new(alloc, Bracketed)?,
        "stop" => Box::new(alloc, Stop)?,
        _ => Box::new(alloc, Mute)?,
    };
    if is_default {
        engine.set_default_formatter(boxed);
    } else {
        engine.add_formatter(CowStr::Borrowed(name), boxed)?;
    }
    Ok(())
}

/// Makes the formatter of this name the default one.
pub fn set_default(
    engine: &mut Engine<'_>,
    alloc: Global,
    name: &'static str,
) -> Result<(), AllocError> {
    add_formatter(engine, alloc, name, true)
}

/// Adds the callable of this name.
pub fn add<'e>(engine: &mut Engine<'e>, alloc: Global, name: &'e str) -> Result<(), AllocError> {
    let called = CowStr::Borrowed(name);
    match name {
        "double" => engine.add_function(called, Box::new(alloc, Fn1::new(Double))?)?,
        "sum" => engine.add_function(called, Box::new(alloc, Fn2::new(Add))?)?,
        "low" => engine.add_function(called, Box::new(alloc, Fn1::new(Low))?)?,
        "no" => engine.add_function(called, Box::new(alloc, Fn1S::new(No))?)?,
        "pair" => engine.add_function(called, Box::new(alloc, Fn1V::new(Pair))?)?,
        "nothing" => engine.add_function(called, Box::new(alloc, Fn0::new(Nothing))?)?,
        _ => {
            add_formatter(engine, alloc, name, false)?;
            None
        }
    };
    Ok(())
}
