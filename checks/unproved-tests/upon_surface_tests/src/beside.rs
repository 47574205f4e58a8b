// Names that upon has not: what is public here beside its own.
use std::alloc::{AllocError, Global};
use std::collections::BTreeMap;
use std::io;
use std::test::Fail;
use upon::error::cause::Cause;
use upon::error::reason::Reason;
use upon::error::{Error, ErrorKind};
use upon::fmt;
use upon::fmt::Formatter;
use upon::functions::{CallError, FunctionReturn, Meaning, OwnedArgument, call_1};
use upon::render::{
    Context, EngineTemplates, LoopState, Mark, NoSource, OneTemplate, Output, Renderer,
    SerdeContext, SourceValues, TemplateMap, TemplateSource, ValueSource,
};
use upon::types::{Instr, Span};
use upon::value::ValueCow;
use upon::{
    Engine, Limits, Needs, Result, Template, TemplateRef, Value, includes, names_needed, needs_of,
};

// An engine and its templates.
pub fn held<'a, 'e>(engine: &'a Engine<'e>, name: &str) -> Option<&'a Template<'e>> {
    engine.held(name)
}

pub fn templates<'a, 'e>(engine: &'a Engine<'e>) -> &'a BTreeMap<String, Template<'e>> {
    engine.templates()
}

pub fn instrs<'t>(template: &'t Template) -> &'t [Instr] {
    template.instrs()
}

pub fn instrs_of_ref<'r>(template: TemplateRef<'r, '_>) -> &'r [Instr] {
    template.instrs()
}

pub fn lent<'t>(template: &'t Template<'_>) -> &'t Template<'t> {
    template.lent()
}

pub fn render_text(engine: &Engine, source: &str, value: &Value) -> Result<String> {
    engine.render_text(source, value)
}

pub fn render_template(engine: &Engine, name: &str, value: &Value) -> Option<Result<String>> {
    engine.render_template(name, value)
}

pub fn render_text_to<W: io::Write>(
    engine: &Engine,
    source: &str,
    value: &Value,
    out: &mut W,
) -> Result<()> {
    engine.render_text_to(source, value, out)
}

pub fn render_template_to<W: io::Write>(
    engine: &Engine,
    name: &str,
    value: &Value,
    out: &mut W,
) -> Option<Result<()>> {
    engine.render_template_to(name, value, out)
}

// Limits.
pub fn no_limits() -> Limits {
    Limits::none()
}

pub fn limits(limits: &Limits) -> (Option<usize>, Option<usize>, Option<usize>) {
    (limits.steps, limits.output, limits.values)
}

pub fn render_text_within(
    engine: &Engine,
    limits: &Limits,
    source: &str,
    value: &Value,
) -> Result<String> {
    engine.render_text_within(limits, source, value)
}

pub fn render_template_within(
    engine: &Engine,
    limits: &Limits,
    name: &str,
    value: &Value,
) -> Option<Result<String>> {
    engine.render_template_within(limits, name, value)
}

pub fn render_text_to_within<W: io::Write>(
    engine: &Engine,
    limits: &Limits,
    source: &str,
    value: &Value,
    out: &mut W,
) -> Result<()> {
    engine.render_text_to_within(limits, source, value, out)
}

pub fn render_template_to_within<W: io::Write>(
    engine: &Engine,
    limits: &Limits,
    name: &str,
    value: &Value,
    out: &mut W,
) -> Option<Result<()>> {
    engine.render_template_to_within(limits, name, value, out)
}

// What a template needs.
pub fn needed<'r>(
    engine: &'r Engine,
    name: &str,
) -> Option<std::result::Result<Needs<'r>, AllocError>> {
    needs_of(engine, name)
}

pub fn needs<'a, 'n>(needs: &'a Needs<'n>) -> (&'a [&'n str], &'a [&'n str], &'a [&'n str], bool) {
    (needs.names(), needs.templates(), needs.missing(), needs.is_whole())
}

pub fn names<'t>(template: &'t Template) -> std::result::Result<Vec<&'t str>, AllocError> {
    names_needed(template)
}

pub fn included<'t>(template: &'t Template) -> std::result::Result<Vec<&'t str>, AllocError> {
    includes(template)
}

// Renderings: their types, and what comes back.
pub fn from_serde<'r, 'e>(
    engine: &'r Engine<'e>,
    template: &'r Template,
    number: i64,
) -> Renderer<'r, &'r Engine<'e>, SerdeContext, EngineTemplates<'r, 'e>> {
    template.render(engine, number)
}

pub fn from_value<'r, 'e>(
    engine: &'r Engine<'e>,
    template: &'r Template,
    value: &'r Value,
) -> Renderer<'r, &'r Engine<'e>, Context<'r>, EngineTemplates<'r, 'e>> {
    template.render_from(engine, value)
}

pub fn from_source<'r, 'e, S: ValueSource>(
    engine: &'r Engine<'e>,
    template: &'r Template,
    source: S,
) -> Renderer<'r, &'r Engine<'e>, SourceValues<S>, EngineTemplates<'r, 'e>> {
    template.render_from_fn(engine, source)
}

pub fn source_back<S: ValueSource>(values: SourceValues<S>) -> S {
    values.into_source()
}

fn is_value_source<S: ValueSource>(_source: &S) {}

pub fn no_source(alloc: Global) {
    is_value_source(&NoSource::new(alloc))
}

fn is_template_source<'r, S: TemplateSource<'r>>(_source: &S) {}

pub fn one_template(template: &Template) {
    is_template_source(&OneTemplate::new(template))
}

pub fn template_map(alloc: Global, templates: &BTreeMap<String, Template>) {
    is_template_source(&TemplateMap::new(alloc, templates))
}

pub fn mark(mark: &Mark) -> Option<&io::Error> {
    match mark {
        Mark::Clear => None,
        Mark::Waits(error) => Some(error),
        Mark::Taken(error) => Some(error),
    }
}

pub fn has_begun(state: &LoopState) -> bool {
    state.has_begun()
}

// Formatters, functions and errors.
pub fn allocator(f: &Formatter) -> Global {
    f.allocator()
}

pub fn text(f: &Formatter) -> Option<&str> {
    f.text()
}

pub fn clear(f: &mut Formatter) {
    f.clear()
}

pub fn into_text(f: Formatter) -> Option<String> {
    f.into_text()
}

pub fn message(error: fmt::Error) -> Option<String> {
    error.message()
}

pub fn call<N: Meaning, A: OwnedArgument, R: FunctionReturn, F: FnOnce(A) -> R>(
    alloc: Global,
    args: &[ValueCow],
    closure: F,
) -> std::result::Result<Value, CallError> {
    call_1::<N, A, R, F>(alloc, args, closure)
}

pub fn from_owned_parts(
    alloc: Global,
    kind: ErrorKind,
    reason: Option<String>,
    at: Option<(&str, Span)>,
) -> Error {
    Error::from_owned_parts(alloc, kind, reason, at)
}

pub fn from_cause(
    alloc: Global,
    kind: ErrorKind,
    cause: Cause,
    at: Option<(&str, Span)>,
) -> Error {
    Error::from_cause(alloc, kind, cause, at)
}

pub fn from_reason(
    alloc: Global,
    kind: ErrorKind,
    reason: Reason,
    at: Option<(&str, Span)>,
) -> Error {
    Error::from_reason(alloc, kind, reason, at)
}

pub fn cause(error: &Error) -> Option<&Cause> {
    error.cause()
}

pub fn marked_line(error: &Error) -> Option<(&str, &str)> {
    error.marked_line()
}

pub fn words(alloc: Global, cause: &Cause) -> std::result::Result<String, AllocError> {
    cause.text(alloc)
}

pub fn into_reason(error: fmt::Error) -> Reason {
    error.into_reason()
}

#[test]
fn causes(rt: HostRuntime) -> std::result::Result<(), Fail> {
    let alloc = rt.alloc();
    let at = Some(("a b", Span { m: 2, n: 3 }));
    let error = from_cause(alloc, ErrorKind::Render, Cause::NotInMap, at);
    assert!(rt; matches!(cause(&error), Some(Cause::NotInMap)));
    assert_eq!(rt; error.reason(), Some("not found in map"));
    assert_eq!(rt; words(alloc, &Cause::NotInMap)?.as_str(), "not found in map");
    assert!(rt; marked_line(&error) == Some(("a ", "b")));
    let error = from_reason(alloc, ErrorKind::Render, Reason::None, None);
    assert!(rt; cause(&error).is_none() && marked_line(&error).is_none());
    let error = from_owned_parts(alloc, ErrorKind::Render, Some(String::from_str(alloc, "no")?), None);
    assert!(rt; cause(&error).is_none());
    Ok(())
}

#[test]
fn beside(rt: HostRuntime) -> std::result::Result<(), Fail> {
    let alloc = rt.alloc();
    let mut engine = Engine::new(alloc);
    engine.add_template("t".into(), "a{{ b }}".into())?;
    assert_eq!(rt; templates(&engine).len(), 1);
    let Some(template) = held(&engine, "t") else {
        return Err(Fail::from(AllocError));
    };
    assert_eq!(rt; instrs(template).len(), instrs_of_ref(engine.template("t")).len());
    assert_eq!(rt; lent(template).source(), "a{{ b }}");
    assert_eq!(rt; names(template)?.len(), 1);
    assert_eq!(rt; included(template)?.len(), 0);
    let Some(found) = needed(&engine, "t") else {
        return Err(Fail::from(AllocError));
    };
    assert!(rt; !needs(&found?).3);
    assert_eq!(rt; render_text(&engine, "c", &Value::None)?.as_str(), "c");
    let within = render_text_within(&engine, &no_limits(), "c", &Value::None)?;
    assert_eq!(rt; within.as_str(), "c");
    let mut f = Formatter::new(alloc);
    clear(&mut f);
    assert!(rt; f.write_str("d").is_ok());
    assert!(rt; text(&f) == Some("d"));
    assert!(rt; into_text(f).is_some_and(|text| text.as_str() == "d"));
    Ok(())
}
