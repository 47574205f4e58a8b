// Names of the root of `upon`.
use serde::Serialize;
use std::alloc::{AllocError, Global};
use std::borrow::CowStr;
use std::hash::Hash;
use std::io;
use std::test::Fail;
use upon::fmt::Format;
use upon::functions::Function;
use upon::render::{Output, TemplateSource, ValueSource};
use upon::{
    Engine, EngineCallable, Error, Renderer, Result, Syntax, SyntaxBuilder, Template, TemplateRef,
    Value, ValueAccess, ValueAccessOp, ValueMember,
};

pub fn engine<'e>(alloc: Global) -> Engine<'e> {
    Engine::new(alloc)
}

pub fn default_engine<'e>(alloc: Global) -> Engine<'e> {
    Engine::default(alloc)
}

pub fn sets(engine: &mut Engine, depth: usize, syntax: Syntax, formatter: Box<dyn Format>) {
    engine.set_max_include_depth(depth);
    engine.set_syntax(syntax);
    engine.set_default_formatter(formatter);
}

pub fn add_formatter(
    engine: &mut Engine,
    name: CowStr,
    formatter: Box<dyn Format>,
) -> std::result::Result<Option<EngineCallable>, AllocError> {
    engine.add_formatter(name, formatter)
}

pub fn add_function(
    engine: &mut Engine,
    name: CowStr,
    function: Box<dyn Function>,
) -> std::result::Result<Option<EngineCallable>, AllocError> {
    engine.add_function(name, function)
}

pub fn remove_callable(engine: &mut Engine, name: &str) -> Option<EngineCallable> {
    engine.remove_callable(name)
}

pub fn add_template<'e>(
    engine: &mut Engine<'e>,
    name: CowStr<'e>,
    source: CowStr<'e>,
) -> Result<()> {
    engine.add_template(name, source)
}

pub fn template<'r, 'e>(engine: &'r Engine<'e>, name: &str) -> TemplateRef<'r, 'e> {
    engine.template(name)
}

pub fn get_template<'r, 'e>(engine: &'r Engine<'e>, name: &str) -> Option<TemplateRef<'r, 'e>> {
    engine.get_template(name)
}

pub fn remove_template(engine: &mut Engine, name: &str) -> bool {
    engine.remove_template(name)
}

pub fn compile<'s>(engine: &Engine, source: CowStr<'s>) -> Result<Template<'s>> {
    engine.compile(source)
}

pub fn source<'t>(template: &'t Template) -> &'t str {
    template.source()
}

pub fn source_of_ref<'r, 'e>(template: TemplateRef<'r, 'e>) -> &'r str {
    template.source()
}

fn is_copy<T: Copy>(_one: T) {}

pub fn ref_is_copy<'r, 'e>(template: TemplateRef<'r, 'e>) {
    is_copy(template)
}

// Renderings of a template.
pub fn render<S: Serialize + Drop>(
    engine: &Engine,
    template: &Template,
    context: S,
) -> Result<String> {
    template.render(engine, context).to_string()
}

pub fn render_from(engine: &Engine, template: &Template, value: &Value) -> Result<String> {
    template.render_from(engine, value).to_string()
}

pub fn render_from_fn<V: ValueSource>(
    engine: &Engine,
    template: &Template,
    values: V,
) -> Result<String> {
    template.render_from_fn(engine, values).to_string()
}

// Renderings of a reference to a template.
pub fn ref_render<S: Serialize + Drop>(template: TemplateRef, context: S) -> Result<String> {
    template.render(context).to_string()
}

pub fn ref_render_from<'r>(template: TemplateRef<'r, '_>, value: &'r Value) -> Result<String> {
    template.render_from(value).to_string()
}

pub fn ref_render_from_fn<V: ValueSource>(template: TemplateRef, values: V) -> Result<String> {
    template.render_from_fn(values).to_string()
}

pub fn to_writer<W: io::Write>(
    engine: &Engine,
    template: &Template,
    value: &Value,
    writer: &mut W,
) -> Result<()> {
    template
        .render_from(engine, value)
        .with_max_include_depth(3)
        .to_writer(writer)
}

pub fn to_output<O: Output>(
    engine: &Engine,
    template: &Template,
    value: &Value,
    out: &mut O,
) -> Result<()> {
    template.render_from(engine, value).to_output(out)
}

pub fn with_template_fn<'r, T: TemplateSource<'r>, E: Drop, V: Drop, U: Drop>(
    renderer: Renderer<'r, E, V, U>,
    templates: T,
) -> Renderer<'r, E, V, T> {
    renderer.with_template_fn(templates)
}

// Members.
fn is_key<T: Copy + PartialEq + Eq + Hash>(_one: T) {}

pub fn members(text: &str) -> ValueMember<'_> {
    is_key(ValueAccessOp::Optional);
    is_key(ValueAccess::Index(1));
    let member = ValueMember {
        op: ValueAccessOp::Direct,
        access: ValueAccess::Key(text),
    };
    is_key(member);
    member
}

pub fn member(member: &ValueMember) -> (bool, usize) {
    let is_optional = match member.op {
        ValueAccessOp::Direct => false,
        ValueAccessOp::Optional => true,
    };
    let size = match member.access {
        ValueAccess::Index(index) => index,
        ValueAccess::Key(key) => key.len(),
    };
    (is_optional, size)
}

fn is_callable<T: Copy + PartialEq + Eq>(_one: T) {}

pub fn callables() {
    is_callable(EngineCallable::Formatter);
    is_callable(EngineCallable::Function);
}

pub fn is_formatter(callable: EngineCallable) -> bool {
    match callable {
        EngineCallable::Formatter => true,
        EngineCallable::Function => false,
    }
}

pub fn given_at_the_root<'a>(
    value: Value,
    error: Error,
    builder: SyntaxBuilder<'a>,
) -> (Value, Error, SyntaxBuilder<'a>) {
    (value, error, builder)
}

// The program's work.
pub fn run<R: io::Read + Drop, O: io::Write, E: io::Write>(
    alloc: Global,
    args: &[String],
    file: Option<R>,
    out: &mut O,
    err: &mut E,
) -> u8 {
    upon::run(alloc, args, file, out, err)
}

#[test]
fn renderings(rt: HostRuntime) -> std::result::Result<(), Fail> {
    let alloc = rt.alloc();
    let mut engine = default_engine(alloc);
    add_template(&mut engine, CowStr::Borrowed("t"), CowStr::Borrowed("a{{ b }}"))?;
    assert_eq!(rt; member(&members("key")), (false, 3));
    assert!(rt; is_formatter(EngineCallable::Formatter));
    let value = Value::Integer(1);
    let made = compile(&engine, CowStr::Borrowed("b"))?;
    assert_eq!(rt; source(&made), "b");
    assert_eq!(rt; render_from(&engine, &made, &value)?.as_str(), "b");
    assert_eq!(rt; render(&engine, &made, 1i64)?.as_str(), "b");
    assert!(rt; remove_template(&mut engine, "t"));
    assert!(rt; get_template(&engine, "t").is_none());
    let mut out = Vec::new(alloc);
    let mut err = Vec::new(alloc);
    let file: Option<&[u8]> = None;
    assert_eq!(rt; run(alloc, &[], file, &mut out, &mut err), 2);
    Ok(())
}
