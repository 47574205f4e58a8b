// What calls give, report and show.
ghost use Rattle.std.specs.Prelude.{◌≡◌, length};

use crate::vm_calls::fixed::Fixed;
use std::alloc::{AllocError, Global};
use std::process::Abort;
use std::test::Fail;
use upon_fmt::fmt::Formatter;
use upon_types::error::reason::Reason;
use upon_types::types::Span;
use upon_types::types::ast::{Ident, Name};
use upon_types::value::{Value, ValueCow};
use upon_vm_steps::calls::call;
use upon_vm_steps::emission::{emit_value, emit_with};
use upon_vm_steps::fault::Halt;

const NAME: Span = Span { m: 3, n: 4 };

const ARGUMENT: Span = Span { m: 5, n: 6 };

const WHOLE: Span = Span { m: 3, n: 7 };

fn name(alloc: Global) -> Result<Ident, AllocError> {
    Ok(Ident {
        name: Name::from_str(alloc, "f")?,
        span: NAME,
    })
}

// Why there is no value: the reason and where it lies.
fn reported(alloc: Global, halt: Halt) -> Result<String, AllocError> {
    match halt {
        Halt::Fault(fault) => {
            let Span { m, n } = fault.span;
            match fault.reason {
                Reason::Cause(cause) => format!(in alloc; "{m}..{n} {}", cause.text(alloc)?),
                Reason::Text(text) => format!(in alloc; "{m}..{n} {text}"),
                Reason::None => format!(in alloc; "{m}..{n}"),
            }
        }
        Halt::Memory => String::from_str(alloc, "memory"),
        Halt::Output => String::from_str(alloc, "output"),
    }
}

// What a call on one value gives, or what it reports.
fn called(alloc: Global, fixed: Fixed, value: &Value) -> Result<String, AllocError> {
    let values = [ValueCow::Borrowed(value)];
    match call(alloc, &fixed, &name(alloc)?, &values, &[ARGUMENT], WHOLE) {
        Ok(value) => match &value {
            Value::Integer(number) => format!(in alloc; "{number}"),
            _ => String::from_str(alloc, "no number"),
        },
        Err(halt) => reported(alloc, halt),
    }
}

fn is(rt: &impl Abort, got: &str, wanted: &str) {
    assert_eq!(rt; got, wanted);
}

#[test]
fn values_and_faults(rt: HostRuntime) -> Result<(), Fail> {
    let alloc = rt.alloc();
    let text = Value::from_text(alloc, "x")?;
    is(&rt, called(alloc, Fixed::Seven, &text)?.as_str(), "7");
    is(
        &rt,
        called(alloc, Fixed::Nothing, &text)?.as_str(),
        "3..4 unknown function",
    );
    is(
        &rt,
        called(alloc, Fixed::Formats, &text)?.as_str(),
        "3..4 expected function, found formatter",
    );
    is(
        &rt,
        called(alloc, Fixed::Refuses, &text)?.as_str(),
        "3..7 no",
    );
    is(
        &rt,
        called(alloc, Fixed::WantsBool, &text)?.as_str(),
        "5..6 function `f` expects bool argument, found string",
    );
    Ok(())
}

#[test]
fn results_are_as_deep_as_they_are_given(rt: HostRuntime) -> Result<(), Fail> {
    let alloc = rt.alloc();
    for depth in [1, 256, 257, 1_000] {
        let got = called(alloc, Fixed::Nests(depth), &Value::None)?;
        is(&rt, got.as_str(), "no number");
    }
    Ok(())
}

// What is shown of a call, and what is reported after it. A formatter is given a buffer with another text.
fn shown(
    alloc: Global,
    fixed: Fixed,
    values: &[ValueCow],
    spans: &[Span],
) -> Result<String, AllocError>
    requires { length values.now ≡ length spans.now }
{
    let mut written = Formatter::new(alloc);
    drop(written.write_str("before"));
    let mut text = String::new(alloc);
    match emit_with(
        alloc,
        &fixed,
        &name(alloc)?,
        values,
        spans,
        WHOLE,
        &mut written,
        &mut text,
    ) {
        Ok(()) => Ok(text),
        Err(halt) => reported(alloc, halt),
    }
}

#[test]
fn calls_that_are_shown(rt: HostRuntime) -> Result<(), Fail> {
    let alloc = rt.alloc();
    let one = [ValueCow::Owned(Value::Integer(5))];
    is(
        &rt,
        shown(alloc, Fixed::Seven, &one, &[ARGUMENT])?.as_str(),
        "7",
    );
    is(
        &rt,
        shown(alloc, Fixed::Formats, &one, &[ARGUMENT])?.as_str(),
        "5",
    );
    is(
        &rt,
        shown(alloc, Fixed::Refuses, &one, &[ARGUMENT])?.as_str(),
        "3..4 no",
    );
    is(
        &rt,
        shown(alloc, Fixed::Nothing, &one, &[ARGUMENT])?.as_str(),
        "3..4 unknown formatter or function",
    );
    is(
        &rt,
        shown(alloc, Fixed::WantsBool, &[], &[])?.as_str(),
        "3..4 function expects 1 arguments, 0 provided",
    );
    is(
        &rt,
        shown(alloc, Fixed::Formats, &[], &[])?.as_str(),
        "3..4 formatter expects 1 argument, 0 provided",
    );
    Ok(())
}

#[test]
fn values_that_are_shown(rt: HostRuntime) -> Result<(), Fail> {
    let alloc = rt.alloc();
    let truth = shown_alone(alloc, Fixed::Nothing, &Value::Bool(true))?;
    is(&rt, truth.as_str(), "true");
    let list = shown_alone(alloc, Fixed::Nothing, &Value::List(Vec::new(alloc)))?;
    is(
        &rt,
        list.as_str(),
        "5..6 expression evaluated to unformattable type list",
    );
    Ok(())
}

// What is shown of a value where no formatter is named, or what is reported. The buffer has another text before.
fn shown_alone(alloc: Global, fixed: Fixed, value: &Value) -> Result<String, AllocError> {
    let mut written = Formatter::new(alloc);
    drop(written.write_str("before"));
    let mut text = String::new(alloc);
    match emit_value(&fixed, value, ARGUMENT, &mut written, &mut text) {
        Ok(()) => Ok(text),
        Err(halt) => reported(alloc, halt),
    }
}

#[test]
fn texts_and_integers_as_they_are(rt: HostRuntime) -> Result<(), Fail> {
    let alloc = rt.alloc();
    let cases = [
        (Value::Integer(0), "0"),
        (Value::Integer(-1), "-1"),
        (Value::Integer(i64::MAX), "9223372036854775807"),
        (Value::Integer(i64::MIN), "-9223372036854775808"),
        (Value::from_text(alloc, "")?, ""),
        (Value::from_text(alloc, "Zoë & <b>")?, "Zoë & <b>"),
    ];
    for (value, wanted) in &cases {
        let straight = shown_alone(alloc, Fixed::Nothing, value)?;
        is(&rt, straight.as_str(), wanted);
        let formatted = shown_alone(alloc, Fixed::Formats, value)?;
        is(&rt, formatted.as_str(), wanted);
    }
    Ok(())
}
