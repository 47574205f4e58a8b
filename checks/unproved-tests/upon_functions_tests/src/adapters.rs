// Every adapter: with arguments that fit, with one more, and with each that does not fit.
use super::callables::{Name, Named};
use super::reports::{CallReport, report};
use std::alloc::{AllocError, Global};
use std::collections::BTreeMap;
use std::process::Abort;
use std::test::Fail;
use upon::functions::{
    Fn0, Fn1, Fn1L, Fn1M, Fn1S, Fn1V, Fn2, Fn2LO, Fn2LS, Fn2LV, Fn2MO, Fn2MS, Fn2MV, Fn2OS, Fn2OV,
    Fn2SO, Fn2SS, Fn2SV, Fn2VO, Fn2VS, Fn2VV, Fn3, Fn4, Fn5, Function,
};
use upon_types::value::{Value, ValueCow};

// A value that fits the argument of a letter.
fn fitting(alloc: Global, letter: char) -> Result<Value, AllocError> {
    match letter {
        'O' => Ok(Value::from(1)),
        'S' => Value::from_text(alloc, "t"),
        'L' => Ok(Value::from(Vec::new(alloc))),
        'M' => Ok(Value::from(BTreeMap::new(alloc))),
        _ => Ok(Value::None),
    }
}

// The word of a letter's type; none where every value fits.
fn word(letter: char) -> Option<&'static str> {
    match letter {
        'O' => Some("i64"),
        'S' => Some("&str"),
        'L' => Some("list"),
        'M' => Some("map"),
        _ => None,
    }
}

// Arguments for these letters, of which those from an index on are truth values.
fn arguments(
    alloc: Global,
    letters: &str,
    wrong_from: usize,
) -> Result<Vec<ValueCow<'static>>, AllocError> {
    let mut all = Vec::new(alloc);
    for letter in letters.chars() {
        if all.len() < wrong_from {
            all.push(ValueCow::Owned(fitting(alloc, letter)?))?;
        } else {
            all.push(ValueCow::Owned(Value::Bool(true)))?;
        }
    }
    Ok(all)
}

fn call<F: Function>(alloc: Global, function: &F, args: &[ValueCow]) -> CallReport {
    report(function.call(alloc, args))
}

// The adapter of these letters answers its name; it refuses one more argument, and the first that does not fit.
fn answers<F: Function>(
    rt: &impl Abort,
    alloc: Global,
    function: &F,
    letters: &str,
    name: &str,
) -> Result<(), Fail> {
    let mut args = arguments(alloc, letters, 9)?;
    let number = args.len();
    assert!(rt; call(alloc, function, &args) == CallReport::Value(Value::from_text(alloc, name)?));
    args.push(ValueCow::Owned(Value::Bool(true)))?;
    assert!(rt; call(alloc, function, &args) == CallReport::Arity(number));
    for (index, letter) in letters.chars().enumerate() {
        if let Some(word) = word(letter) {
            let args = arguments(alloc, letters, index)?;
            assert!(rt; call(alloc, function, &args) == CallReport::WrongType(index, word));
        }
    }
    Ok(())
}

#[test]
fn owned_arguments(rt: HostRuntime) -> Result<(), Fail> {
    let alloc = rt.alloc();
    answers(&rt, alloc, &Fn0::<Named, Name>::new(Named), "", "Fn0")?;
    answers(&rt, alloc, &Fn1::<Named, i64, Name>::new(Named), "O", "Fn1")?;
    answers(
        &rt,
        alloc,
        &Fn2::<Named, i64, i64, Name>::new(Named),
        "OO",
        "Fn2",
    )?;
    answers(
        &rt,
        alloc,
        &Fn3::<Named, i64, i64, i64, Name>::new(Named),
        "OOO",
        "Fn3",
    )?;
    answers(
        &rt,
        alloc,
        &Fn4::<Named, i64, i64, i64, i64, Name>::new(Named),
        "OOOO",
        "Fn4",
    )?;
    answers(
        &rt,
        alloc,
        &Fn5::<Named, i64, i64, i64, i64, i64, Name>::new(Named),
        "OOOOO",
        "Fn5",
    )?;
    Ok(())
}

#[test]
fn one_lent_argument(rt: HostRuntime) -> Result<(), Fail> {
    let alloc = rt.alloc();
    answers(&rt, alloc, &Fn1S::<Named, Name>::new(Named), "S", "Fn1S")?;
    answers(&rt, alloc, &Fn1L::<Named, Name>::new(Named), "L", "Fn1L")?;
    answers(&rt, alloc, &Fn1M::<Named, Name>::new(Named), "M", "Fn1M")?;
    answers(&rt, alloc, &Fn1V::<Named, Name>::new(Named), "V", "Fn1V")?;
    Ok(())
}

#[test]
fn first_owned_or_a_text(rt: HostRuntime) -> Result<(), Fail> {
    let alloc = rt.alloc();
    answers(
        &rt,
        alloc,
        &Fn2OS::<Named, i64, Name>::new(Named),
        "OS",
        "Fn2OS",
    )?;
    answers(
        &rt,
        alloc,
        &Fn2OV::<Named, i64, Name>::new(Named),
        "OV",
        "Fn2OV",
    )?;
    answers(
        &rt,
        alloc,
        &Fn2SO::<Named, i64, Name>::new(Named),
        "SO",
        "Fn2SO",
    )?;
    answers(&rt, alloc, &Fn2SS::<Named, Name>::new(Named), "SS", "Fn2SS")?;
    answers(&rt, alloc, &Fn2SV::<Named, Name>::new(Named), "SV", "Fn2SV")?;
    Ok(())
}

#[test]
fn first_a_list_or_a_map(rt: HostRuntime) -> Result<(), Fail> {
    let alloc = rt.alloc();
    answers(
        &rt,
        alloc,
        &Fn2LO::<Named, i64, Name>::new(Named),
        "LO",
        "Fn2LO",
    )?;
    answers(&rt, alloc, &Fn2LS::<Named, Name>::new(Named), "LS", "Fn2LS")?;
    answers(&rt, alloc, &Fn2LV::<Named, Name>::new(Named), "LV", "Fn2LV")?;
    answers(
        &rt,
        alloc,
        &Fn2MO::<Named, i64, Name>::new(Named),
        "MO",
        "Fn2MO",
    )?;
    answers(&rt, alloc, &Fn2MS::<Named, Name>::new(Named), "MS", "Fn2MS")?;
    answers(&rt, alloc, &Fn2MV::<Named, Name>::new(Named), "MV", "Fn2MV")?;
    Ok(())
}

#[test]
fn first_any_value(rt: HostRuntime) -> Result<(), Fail> {
    let alloc = rt.alloc();
    answers(
        &rt,
        alloc,
        &Fn2VO::<Named, i64, Name>::new(Named),
        "VO",
        "Fn2VO",
    )?;
    answers(&rt, alloc, &Fn2VS::<Named, Name>::new(Named), "VS", "Fn2VS")?;
    answers(&rt, alloc, &Fn2VV::<Named, Name>::new(Named), "VV", "Fn2VV")?;
    Ok(())
}
