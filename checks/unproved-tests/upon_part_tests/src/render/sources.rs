// Sources of values: what they are asked, and how often.
use crate::render::stack::{DOT, MAYBE, Part, Row, all_found};
use std::alloc::{AllocError, Global};
use std::test::Fail;
use upon_lookup::source::{SourceError, ValueAccess, ValueAccessOp, ValueMember, ValueSource};
use upon_lookup::value_fn::{CallPath, ValueFn};
use upon_render::stack::{Stack, State};
use upon_types::types::ast::{Ident, Name};
use upon_types::value::{Value, ValueCow};

// A function that answers 1, 2, .. in turn.
#[derive(Drop)]
struct Counter {
    asked: u32,
}

impl CallPath for Counter {
    ghost use Rattle.std.specs.Prelude.{ℕ, ◌+◌, ◌%◌, ◌^◌, pos};
    ghost use Rattle.upon_types.specs.Val.{int_val};
    ghost use Rattle.upon_render.specs.Finding.{reply};
    ghost use Rattle.upon_render.specs.Source.{says};

    ghost State = { ℕ };

    ghost call_state = { λ s. s.asked };

    ghost answers_path = { λ n path. reply (says (int_val (pos ((n + 1) % 2 ^ 32)))) ((n + 1) % 2 ^ 32) };

    fn call(&mut self, _path: &[ValueMember]) -> Result<Value, SourceError> {
        self.asked = self.asked.wrapping_add(1);
        Ok(Value::Integer(self.asked as i64))
    }
}

// It refuses each path, and writes down what it was asked.
#[derive(Drop)]
struct Refusing {
    alloc: Global,
    asked: Vec<String>,
}

impl Refusing {
    ghost use Rattle.std.specs.Prelude.{◌≡◌, IfOk, string_bytes, codes};

    fn note(&mut self, path: &[ValueMember]) -> Result<String, AllocError>
        ensures { IfOk result (λ reason. string_bytes reason ≡ codes "no user") }
    {
        for member in path {
            let op = match member.op {
                ValueAccessOp::Direct => "Direct",
                ValueAccessOp::Optional => "Optional",
            };
            let line = match member.access {
                ValueAccess::Key(key) => format!(in self.alloc; "{op} {key}")?,
                ValueAccess::Index(index) => format!(in self.alloc; "{op} {index}")?,
            };
            self.asked.push(line)?;
        }
        String::from_str(self.alloc, "no user")
    }
}

impl ValueSource for Refusing {
    ghost use Rattle.std.specs.Prelude.{codes, []};
    ghost use Rattle.upon_render.specs.Finding.{reply};
    ghost use Rattle.upon_render.specs.Source.{refuses};

    ghost State = { Unit {0} };

    ghost value_state = { λ _. tt };

    ghost ask = { λ _ q path. reply (refuses (codes "no user")) q };

    ghost holds = { λ _. [] };

    fn value(&mut self, path: &[ValueMember]) -> Result<Value, SourceError> {
        match self.note(path) {
            Ok(reason) => Err(SourceError::Refused(reason)),
            Err(_) => Err(SourceError::Memory),
        }
    }
}

const A: &[Part] = &[(DOT, "a")];

#[test]
fn asked_once_each(rt: HostRuntime) -> Result<(), Fail> {
    let alloc = rt.alloc();
    let mut counter = ValueFn::new(Counter { asked: 0 });
    let name = Ident {
        name: Name::from_str(alloc, "a")?,
        span: upon_types::types::Span { m: 7, n: 8 },
    };
    let mut stack = Stack::with_value_fn(alloc, &mut counter)?;
    let first: [Row; 1] = [("{{ a }}", 3, A, "Integer(1)")];
    all_found(&rt, alloc, &mut stack, &first)?;
    stack.push(State::Var(&name, ValueCow::Owned(Value::Integer(9))))?;
    let bound: [Row; 1] = [("{{ a }}", 3, A, "Integer(9)")];
    all_found(&rt, alloc, &mut stack, &bound)?;
    stack.push(State::Boundary)?;
    stack.push(State::Scope(ValueCow::Owned(Value::Integer(5))))?;
    let hidden: [Row; 1] = [(
        "{{ a }}",
        3,
        A,
        "render error: not found in this scope 3..4",
    )];
    all_found(&rt, alloc, &mut stack, &hidden)?;
    drop(stack);
    assert_eq!(rt; counter.callable.asked, 1);
    let mut stack = Stack::with_value_fn(alloc, &mut counter)?;
    let second: [Row; 1] = [("{{ a }}", 3, A, "Integer(2)")];
    all_found(&rt, alloc, &mut stack, &second)?;
    drop(stack);
    assert_eq!(rt; counter.callable.asked, 2);
    Ok(())
}

#[test]
fn asked_for_the_whole_path(rt: HostRuntime) -> Result<(), Fail> {
    let alloc = rt.alloc();
    let mut refusing = Refusing {
        alloc,
        asked: Vec::new(alloc),
    };
    let mut stack = Stack::with_value_fn(alloc, &mut refusing)?;
    let rows: [Row; 1] = [(
        "{{ user?.name }}",
        3,
        &[(DOT, "user"), (MAYBE, "name")],
        "render error: no user 3..13",
    )];
    all_found(&rt, alloc, &mut stack, &rows)?;
    drop(stack);
    assert_eq!(rt; refusing.asked.len(), 2);
    assert_eq!(rt; refusing.asked[0].as_str(), "Direct user");
    assert_eq!(rt; refusing.asked[1].as_str(), "Optional name");
    Ok(())
}
