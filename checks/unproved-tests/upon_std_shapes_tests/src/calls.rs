// Each signature of each standard function, on samples that fit: no call is refused, and what it gives fits.
use crate::tables::all_declared;
use std::alloc::{AllocError, Global};
use std::test::Fail;
use upon_shape_check::declared::{DeclaredCallable, Signature};
use upon_functions::function::Function;
use upon_json::context::context;
use upon_shape::shape::Shape;
use upon_std::table::{ALL, StandardFunction};
use upon_types::value::{Value, ValueCow, look};

const SAMPLES: &str = r#"[null, true, false, 0, 7, -3, 9223372036854775807, -9223372036854775808,
    "", "a", " Gr\u00fc\u00dfe\nan alle\u0000 ", "name",
    [], ["b", "a", "", "b"], [3, 1, 2, 1], [true, false], [null, 1, "x"], [[1], ["a"], []], [{"a": 1}, {"name": "n"}],
    [{"name": "x", "tags": [1]}, 5], {}, {"a": "x", "name": "y"}, {"name": 1}, {"b": true, "name": null},
    {"a": [1], "name": {"a": 1}}]"#;

// Why the signature is not kept, if it is not.
fn misfit(
    alloc: Global,
    function: StandardFunction,
    signature: &Signature,
    args: &[ValueCow],
) -> Result<Option<&'static str>, AllocError> {
    match function.call(alloc, args) {
        Ok(value) => {
            let fits = signature.gives.is_as_wide_as(&Shape::of(alloc, &value)?);
            Ok(if fits { None } else { Some("gives what does not fit") })
        }
        Err(_) => Ok(Some("refuses")),
    }
}

// The samples that a shape is of.
fn fitting<'s>(
    alloc: Global,
    samples: &'s [Value],
    shape: &Shape,
) -> Result<Vec<&'s Value>, AllocError> {
    let mut found = Vec::new(alloc);
    for sample in samples {
        if shape.is_as_wide_as(&Shape::of(alloc, sample)?) {
            found.push(sample)?;
        }
    }
    Ok(found)
}

// The arguments of a number: of each argument's samples one.
fn arguments<'s>(
    alloc: Global,
    choices: &[Vec<&'s Value>],
    number: usize,
) -> Result<Vec<ValueCow<'s>>, AllocError> {
    let mut args = Vec::new(alloc);
    let mut left = number;
    for samples in choices {
        let at = left.checked_rem(samples.len()).unwrap_or(0);
        if let Some(sample) = samples.get(at) {
            args.push(ValueCow::Borrowed(*sample))?;
        }
        left = left.checked_div(samples.len()).unwrap_or(0);
    }
    Ok(args)
}

// Tries all arguments of samples that fit. The signature has some, and keeps them.
fn is_kept(
    alloc: Global,
    function: StandardFunction,
    signature: &Signature,
    samples: &[Value],
) -> Result<(), Fail> {
    let mut choices = Vec::new(alloc);
    let mut count: usize = 1;
    for shape in &signature.takes {
        let found = fitting(alloc, samples, shape)?;
        count = count.wrapping_mul(found.len());
        choices.push(found)?;
    }
    let name = function.name();
    if count == 0 {
        return Err(Fail::new(format_args!("no samples for {name}")));
    }
    for number in 0..count {
        let args = arguments(alloc, &choices, number)?;
        if let Some(why) = misfit(alloc, function, signature, &args)? {
            let takes = &signature.takes;
            return Err(Fail::new(format_args!("{name} {why}, of {takes:?}, at {number}")));
        }
    }
    Ok(())
}

#[test]
fn each_signature_is_kept(rt: HostRuntime) -> Result<(), Fail> {
    let alloc = rt.alloc();
    let declared = all_declared(alloc)?;
    let Ok(context) = context(alloc, Some(SAMPLES), &[]) else {
        return Err(Fail::new(format_args!("the samples are no JSON")));
    };
    let Some(Value::List(samples)) = look::entry(&context, "items") else {
        return Err(Fail::new(format_args!("the samples are no list")));
    };
    for function in ALL.as_slice() {
        if let Some(DeclaredCallable::Gives(signatures)) = declared.callable(function.name()) {
            for signature in signatures {
                is_kept(alloc, *function, signature, samples)?;
            }
        }
    }
    Ok(())
}
