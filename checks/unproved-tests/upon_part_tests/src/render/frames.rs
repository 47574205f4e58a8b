// Frames that are taken away, and the innermost loop.
use crate::render::stack::{
    DOT, Row, all_found, all_lie_in, at_item, entry, ident, numbers, one_name, path, shown,
};
use std::alloc::Global;
use std::process::Abort;
use std::test::Fail;
use upon_render::iter::LoopState;
use upon_render::stack::{Stack, State};
use upon_types::value::{Value, ValueCow};

const INDEX: &str = "{{ loop.index }}";

#[test]
fn a_boundary_is_taken_away(rt: HostRuntime) -> Result<(), Fail> {
    let alloc = rt.alloc();
    let context = Value::Map(entry(alloc, "a", Value::Integer(1))?);
    let mut stack = Stack::new(alloc, &context)?;
    stack.push(State::Boundary)?;
    stack.pop_boundary();
    let rows: [Row; 1] = [("{{ a }}", 3, &[(DOT, "a")], "Integer(1)")];
    all_found(&rt, alloc, &mut stack, &rows)
}

#[test]
fn a_context_is_taken_away(rt: HostRuntime) -> Result<(), Fail> {
    let alloc = rt.alloc();
    let context = Value::Map(entry(alloc, "a", Value::Integer(1))?);
    let inner = Value::Map(entry(alloc, "a", Value::Integer(2))?);
    let mut stack = Stack::new(alloc, &context)?;
    stack.push(State::Scope(ValueCow::Owned(inner)))?;
    let taken = stack.pop_scope();
    assert!(&rt; matches!(&taken, ValueCow::Owned(Value::Map(_))));
    let rows: [Row; 1] = [("{{ a }}", 3, &[(DOT, "a")], "Integer(1)")];
    all_found(&rt, alloc, &mut stack, &rows)
}

#[test]
fn a_name_is_taken_away(rt: HostRuntime) -> Result<(), Fail> {
    let alloc = rt.alloc();
    let name = ident(alloc, "a", 3)?;
    let context = Value::Map(entry(alloc, "a", Value::Integer(1))?);
    let mut stack = Stack::new(alloc, &context)?;
    stack.push(State::Var(&name, ValueCow::Owned(Value::Integer(2))))?;
    stack.push(State::Var(&name, ValueCow::Owned(Value::Integer(3))))?;
    stack.drop_frame();
    let inner: [Row; 1] = [("{{ a }}", 3, &[(DOT, "a")], "Integer(2)")];
    all_found(&rt, alloc, &mut stack, &inner)?;
    let (taken, value) = stack.pop_var();
    assert_eq!(&rt; taken.name.as_str(), "a");
    assert_eq!(&rt; shown(alloc, Ok(value))?.as_str(), "Integer(2)");
    let outer: [Row; 1] = [("{{ a }}", 3, &[(DOT, "a")], "Integer(1)")];
    all_found(&rt, alloc, &mut stack, &outer)
}

// Which of the four kinds a state is of.
fn kind_of(state: &State<'_>) -> &'static str {
    match state {
        State::Scope(_) => "scope",
        State::Var(_, _) => "name",
        State::Loop(_) => "loop",
        State::Boundary => "boundary",
    }
}

#[test]
fn a_state_is_of_four_kinds(rt: HostRuntime) -> Result<(), Fail> {
    let alloc = rt.alloc();
    let name = ident(alloc, "a", 3)?;
    let items = numbers(alloc, 3, 4)?;
    let vars = one_name(alloc, "x")?;
    let state = at_item(&rt, alloc, &vars, ValueCow::Borrowed(&items), 1)?;
    assert_eq!(&rt; kind_of(&State::Scope(ValueCow::Borrowed(&items))), "scope");
    assert_eq!(&rt; kind_of(&State::Var(&name, ValueCow::Borrowed(&items))), "name");
    assert_eq!(&rt; kind_of(&State::Loop(state)), "loop");
    assert_eq!(&rt; kind_of(&State::Boundary), "boundary");
    Ok(())
}

// Whether `loop.index` is this, as it is shown.
fn index_is(
    rt: &impl Abort,
    alloc: Global,
    state: &LoopState<'_>,
    wanted: &str,
) -> Result<bool, Fail> {
    let path = path(alloc, 3, &[(DOT, "loop"), (DOT, "index")])?;
    assert!(rt; path.len() > 0);
    assert!(rt; all_lie_in(INDEX, path.as_slice()));
    match state.lookup_loop(alloc, INDEX, path.as_slice())? {
        Some(found) => Ok(shown(alloc, Ok(found))?.as_str() == wanted),
        None => Ok(false),
    }
}

#[test]
fn the_innermost_loop(rt: HostRuntime) -> Result<(), Fail> {
    let alloc = rt.alloc();
    let items = numbers(alloc, 3, 4)?;
    let vars = one_name(alloc, "x")?;
    let context = Value::None;
    let mut stack = Stack::new(alloc, &context)?;
    let state = at_item(&rt, alloc, &vars, ValueCow::Borrowed(&items), 1)?;
    assert!(&rt; !stack.is_in_loop());
    stack.push(State::Boundary)?;
    assert!(&rt; !stack.is_in_loop());
    stack.push(State::Loop(state))?;
    assert!(&rt; stack.is_in_loop());
    let innermost = stack.last_loop_state_mut();
    assert!(&rt; index_is(&rt, alloc, innermost, "Integer(0)")?);
    assert!(&rt; !innermost.is_empty());
    assert!(&rt; innermost.iterate().is_some());
    assert!(&rt; index_is(&rt, alloc, innermost, "Integer(1)")?);
    assert!(&rt; innermost.is_empty());
    assert!(&rt; innermost.iterate().is_none());
    Ok(())
}
