// Callables that are the same for each name.
ghost use Rattle.std.specs.Prelude.{◌≡◌, Err, codes};
ghost use Rattle.upon_functions.specs.Says.{Says};
ghost use Rattle.upon_functions.specs.declared.function.CallError.TheVariants.{Memory};
ghost use Rattle.upon_types.specs.Answers.{declines};

use std::alloc::{AllocError, Global};
use upon_fmt::fmt::{self, Formatter, default};
use upon_functions::function::{ArgError, CallError};
use upon_types::value::{Value, ValueCow};
use upon_vm_steps::callables::{Applied, Callables, Called};

// What each name stands for.
#[derive(Clone, Copy)]
pub enum Fixed {
    Nothing,
    Formats,
    Seven,
    Refuses,
    WantsBool,
    Nests(usize),
}

// A number in so many lists and maps, which take turns.
pub fn nested(alloc: Global, depth: usize) -> Result<Value, AllocError> {
    let mut value = Value::Integer(1);
    for i in 0..depth {
        if i % 2 == 0 {
            value = Value::List(vec![in alloc; value]?);
        } else {
            value = Value::from_pairs(alloc, [(String::from_str(alloc, "k")?, value)])?;
        }
    }
    Ok(value)
}

// The refusal of one who says no.
fn no(alloc: Global) -> CallError
    ensures { Says (Err result) (declines (codes "no")) }
{
    match String::from_str(alloc, "no") {
        Ok(text) => CallError::Fault(text),
        Err(error) => refused(error),
    }
}

fn refused(_error: AllocError) -> CallError
    ensures { result ≡ Memory }
{
    CallError::Memory
}

impl Callables for Fixed {
    ghost use Rattle.upon_part_tests.specs.Fixed.{callable_of};
    ghost use Rattle.upon_meaning_spec.specs.DefaultFormat.{default_format};

    ghost callables = { λ s _. callable_of s };

    ghost default_formatter = { λ _. default_format };

    fn call(&self, alloc: Global, _name: &str, values: &[ValueCow]) -> Called {
        match self {
            Fixed::Nothing => Called::Unknown,
            Fixed::Formats => Called::Formatter,
            Fixed::Seven => Called::Function(Ok(Value::Integer(7))),
            Fixed::Refuses => Called::Function(Err(no(alloc))),
            Fixed::WantsBool if values.is_empty() => Called::Function(Err(CallError::Arity(1))),
            Fixed::WantsBool => {
                Called::Function(Err(CallError::Arg(0, ArgError::WrongType("bool"))))
            }
            Fixed::Nests(depth) => match nested(alloc, *depth) {
                Ok(value) => Called::Function(Ok(value)),
                Err(error) => Called::Function(Err(refused(error))),
            },
        }
    }

    fn apply(&self, alloc: Global, name: &str, f: &mut Formatter, values: &[ValueCow]) -> Applied {
        match self.call(alloc, name, values) {
            Called::Unknown => Applied::Unknown,
            Called::Formatter if values.len() == 1 => Applied::Formatted(default(f, &values[0])),
            Called::Formatter => Applied::Miscounted,
            Called::Function(answer) => Applied::Called(answer),
        }
    }

    // Where all names are formatters, the default one is asked too.
    fn is_plain(&self) -> bool {
        match self {
            Fixed::Formats => false,
            _ => true,
        }
    }

    fn default_format(&self, f: &mut Formatter, value: &Value) -> fmt::Result {
        default(f, value)
    }
}
