// Names of `upon::render`.
use std::alloc::{AllocError, Global};
use std::io;
use std::test::Fail;
use upon::render::{
    CallName, CallPath, LoopState, Output, Renderer, SourceError, Stack, State, TemplateFn,
    TemplateSource, ValueFn, ValueSource, Writer, lookup, lookup_path, lookup_path_maybe,
};
use upon::types::Span;
use upon::types::ast::{Ident, LoopVars, Member, Var};
use upon::value::ValueCow;
use upon::{Result, Template, Value, ValueMember};

fn drops<T: Drop>(_one: &T) {}

pub fn value<S: ValueSource>(
    source: &mut S,
    path: &[ValueMember],
) -> std::result::Result<Value, SourceError> {
    drops(source);
    source.value(path)
}

pub fn template<'r, S: TemplateSource<'r>>(
    source: &mut S,
    name: &str,
) -> std::result::Result<&'r Template<'r>, SourceError> {
    drops(source);
    source.template(name)
}

pub fn source_error(error: SourceError) -> usize {
    match error {
        SourceError::Refused(text) => text.len(),
        SourceError::Memory => 0,
    }
}

fn is_value_source<S: ValueSource>(_source: S) {}

fn is_template_source<'r, S: TemplateSource<'r>>(_source: S) {}

pub fn lent_values<S: ValueSource>(source: &mut S) {
    is_value_source::<&mut S>(source)
}

pub fn lent_templates<'r, S: TemplateSource<'r>>(source: &mut S) {
    is_template_source::<&mut S>(source)
}

// Sources of a type with the trait that each goes with.
pub fn value_fn<C: CallPath>(callable: C) {
    is_value_source(ValueFn::new(callable))
}

pub fn template_fn<'r, C: CallName<'r>>(callable: C) {
    is_template_source(TemplateFn::new(callable))
}

pub fn give<O: Output>(out: &mut O, text: &str) -> std::fmt::Result {
    out.give(text)
}

pub fn take_err<O: Output>(out: &mut O) -> Option<io::Error> {
    out.take_err()
}

fn is_output<O: Output>(_out: &O) {}

pub fn outputs<W: io::Write + Drop>(text: &String, writer: W) {
    is_output(text);
    let out = Writer::new(writer);
    is_output(&out);
}

// Its other calls are in `root`.
pub fn renderer<'r, E: Drop, V: Drop, T: Drop>(renderer: Renderer<'r, E, V, T>) {
    drop(renderer.with_max_include_depth(3));
}

// Look-ups.
pub fn looks_up<'a>(
    alloc: Global,
    source: &str,
    value: &'a Value,
    member: &Member,
) -> Result<Option<&'a Value>> {
    lookup(alloc, source, value, member)
}

pub fn looks_up_path<'a>(
    alloc: Global,
    source: &str,
    value: &ValueCow<'a>,
    path: &[Member],
) -> Result<ValueCow<'a>> {
    lookup_path(alloc, source, value, path)
}

pub fn looks_up_path_maybe<'a>(
    alloc: Global,
    source: &str,
    value: &ValueCow<'a>,
    path: &[Member],
) -> Result<Option<ValueCow<'a>>> {
    lookup_path_maybe(alloc, source, value, path)
}

// Loops.
pub fn loop_state<'a>(
    alloc: Global,
    source: &'a str,
    vars: &'a LoopVars,
    iterable: ValueCow<'a>,
    span: Span,
) -> Result<LoopState<'a>> {
    LoopState::new(alloc, source, vars, iterable, span)
}

pub fn iterate(state: &mut LoopState) -> Option<()> {
    state.iterate()
}

pub fn lookup_var<'a>(
    alloc: Global,
    state: &LoopState<'a>,
    source: &str,
    var: &Var,
) -> Result<Option<ValueCow<'a>>> {
    state.lookup_var(alloc, source, var)
}

pub fn lookup_loop<'a>(
    alloc: Global,
    state: &LoopState<'a>,
    source: &str,
    path: &[Member],
) -> Result<Option<ValueCow<'a>>> {
    state.lookup_loop(alloc, source, path)
}

// Frames.
pub fn states<'a>(
    context: ValueCow<'a>,
    name: &'a Ident,
    value: ValueCow<'a>,
    state: LoopState<'a>,
) -> [State<'a>; 4] {
    [
        State::Scope(context),
        State::Var(name, value),
        State::Loop(state),
        State::Boundary,
    ]
}

pub fn stack_lookup_var<'a, V: ValueSource>(
    stack: &mut Stack<'a, V>,
    source: &str,
    var: &Var,
) -> Result<ValueCow<'a>> {
    stack.lookup_var(source, var)
}

pub fn push<'a, V: ValueSource>(
    stack: &mut Stack<'a, V>,
    frame: State<'a>,
) -> std::result::Result<(), AllocError> {
    stack.push(frame)
}

pub fn last_loop_state_mut<'s, 'a, V: ValueSource>(
    stack: &'s mut Stack<'a, V>,
) -> &'s mut LoopState<'a> {
    stack.last_loop_state_mut()
}

pub fn pop_scope<'a, V: ValueSource>(stack: &mut Stack<'a, V>) -> ValueCow<'a> {
    stack.pop_scope()
}

pub fn pop_var<'a, V: ValueSource>(stack: &mut Stack<'a, V>) -> (&'a Ident, ValueCow<'a>) {
    stack.pop_var()
}

pub fn pop_loop_state<'a, V: ValueSource>(stack: &mut Stack<'a, V>) -> LoopState<'a> {
    stack.pop_loop_state()
}

pub fn pop_boundary<'a, V: ValueSource>(stack: &mut Stack<'a, V>) {
    stack.pop_boundary()
}

#[test]
fn outputs_and_lookups(rt: HostRuntime) -> std::result::Result<(), Fail> {
    let alloc = rt.alloc();
    let mut text = String::new(alloc);
    assert!(rt; give(&mut text, "a").is_ok());
    assert!(rt; take_err(&mut text).is_none());
    assert_eq!(rt; text.as_str(), "a");
    assert_eq!(rt; source_error(SourceError::Refused(text)), 1);
    let value = Value::Integer(1);
    let found = looks_up_path(alloc, "", &ValueCow::Borrowed(&value), &[])?;
    assert!(rt; found.as_ref() == &value);
    Ok(())
}
