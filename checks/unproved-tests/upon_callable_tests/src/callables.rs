// Engines with the functions and formatters of the tests.
use std::alloc::{AllocError, Global};
use std::borrow::CowStr;
use upon::functions::{Fn1, Fn1S, Fn1V, Fn2};
use upon::{Engine, fmt};
use upon_examples::callables::{Add, Double, Half, Low, Mute, No, Pair};

// Adds the functions of integers of 64 bits.
fn add_integers(engine: &mut Engine<'_>, alloc: Global) -> Result<(), AllocError> {
    let double = Box::new(alloc, Fn1::new(Double))?;
    engine.add_function(CowStr::Borrowed("double"), double)?;
    let add = Box::new(alloc, Fn2::new(Add))?;
    engine.add_function(CowStr::Borrowed("add"), add)?;
    Ok(())
}

// Adds the function of eight bits, and the one of texts.
fn add_refusing(engine: &mut Engine<'_>, alloc: Global) -> Result<(), AllocError> {
    let low = Box::new(alloc, Fn1::new(Low))?;
    engine.add_function(CowStr::Borrowed("low"), low)?;
    let no = Box::new(alloc, Fn1S::new(No))?;
    engine.add_function(CowStr::Borrowed("no"), no)?;
    Ok(())
}

// Adds the function of any value, and the default formatter under a name.
fn add_plain(engine: &mut Engine<'_>, alloc: Global) -> Result<(), AllocError> {
    let pair = Box::new(alloc, Fn1V::new(Pair))?;
    engine.add_function(CowStr::Borrowed("pair"), pair)?;
    let plain = Box::new(alloc, fmt::DefaultFormat)?;
    engine.add_formatter(CowStr::Borrowed("fmt"), plain)?;
    Ok(())
}

// Adds the formatters that refuse.
fn add_formatters(engine: &mut Engine<'_>, alloc: Global) -> Result<(), AllocError> {
    let half = Box::new(alloc, Half)?;
    engine.add_formatter(CowStr::Borrowed("half"), half)?;
    let mute = Box::new(alloc, Mute)?;
    engine.add_formatter(CowStr::Borrowed("mute"), mute)?;
    Ok(())
}

/// Returns an engine with all of them.
pub fn engine<'e>(alloc: Global) -> Result<Engine<'e>, AllocError> {
    let mut engine = Engine::new(alloc);
    add_integers(&mut engine, alloc)?;
    add_refusing(&mut engine, alloc)?;
    add_plain(&mut engine, alloc)?;
    add_formatters(&mut engine, alloc)?;
    Ok(engine)
}
