// `upon::render` once more: what is asked of a loop, the frames of a stack, and stacks that name no source; and the trait
// by which the default syntax is made.
use std::alloc::{AllocError, Global};
use std::test::Fail;
use upon::render::{LoopState, Stack, State, ValueSource};
use upon::{Syntax, Value};

pub fn is_empty(state: &LoopState) -> bool {
    state.is_empty()
}

pub fn state(state: State) -> usize {
    match state {
        State::Scope(_context) => 0,
        State::Var(_name, _value) => 1,
        State::Loop(_state) => 2,
        State::Boundary => 3,
    }
}

// A stack over a value: no caller names a source.
pub fn boundary_over(alloc: Global, value: &Value) -> Result<(), AllocError> {
    let mut stack: Stack<'_, _> = Stack::new(alloc, value)?;
    stack.push(State::Boundary)?;
    stack.pop_boundary();
    Ok(())
}

pub fn stack_with_value_fn<'a, V: ValueSource>(
    alloc: Global,
    values: V,
) -> Result<Stack<'a, V>, AllocError> {
    Stack::with_value_fn(alloc, values)
}

// The syntax.
fn is_default<T: Default>() -> T {
    T::default()
}

pub fn default_syntax() -> Syntax {
    is_default()
}

#[test]
fn frames(rt: HostRuntime) -> std::result::Result<(), Fail> {
    let alloc = rt.alloc();
    boundary_over(alloc, &Value::None)?;
    assert_eq!(rt; state(State::Boundary), 3);
    assert!(rt; default_syntax() == Syntax::default());
    Ok(())
}
