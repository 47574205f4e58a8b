// Renderings to a writer, pictures and refused additions, where a growth of memory may be refused: the same as ever, or
// that memory is out. `checks/growths` refuses each in turn. Memory that is out for a callable ends the rendering.
use crate::callables::engine;
use std::alloc::{AllocError, Global};
use std::borrow::CowStr;
use std::io::{self, Write};
use std::process::Abort;
use std::test::Fail;
use upon::error::ErrorKind;
use upon::fmt::{self, Format, Formatter};
use upon::functions::{CallError, Fn1, Function};
use upon::render::{CallPath, SourceError, ValueFn};
use upon::{Engine, EngineCallable, Error, Result, Value, ValueMember, value};
use upon_types::value::ValueCow;
use upon_examples::callables::Double;

// It takes what it is to receive, and notes whether anything else came. It needs no memory.
#[derive(Drop)]
struct Expects<'a> {
    wanted: &'a [u8],
    is_other: bool,
}

impl Write for Expects<'_> {
    fn write(&mut self, bytes: &[u8]) -> io::Result<usize> {
        match self.wanted.strip_prefix(bytes) {
            Some(rest) => self.wanted = rest,
            None => self.is_other = true,
        }
        Ok(bytes.len())
    }

    fn flush(&mut self) -> io::Result<()> {
        Ok(())
    }
}

fn is_out(error: &Error) -> bool {
    matches!(error.kind(), ErrorKind::OutOfMemory)
}

// A source, what a writer has received at its end, and the reason of its fault.
type Row = (&'static str, &'static str, Option<&'static str>);

const ROWS: &[Row] = &[
    ("Hello {{ user.name }}!", "Hello John Smith!", None),
    (
        "{% for i in [1, 2] %}{{ i }}{% if not loop.last %},{% endif %}{% endfor %}",
        "1,2",
        None,
    ),
    (
        "ab{% include \"t\" with 5 %}",
        "ab",
        Some("not found in this scope"),
    ),
    (
        "ab{{ 1 | fmt: 2 }}",
        "ab",
        Some("formatter expects 1 argument, 2 provided"),
    ),
    (
        "{% include \"hello\" %}\n{% include \"goodbye\" %}",
        "Hello John Smith!\nGoodbye John Smith!",
        None,
    ),
    (
        "{% for k, v in {\"b\": 1, \"a\": 2} %}{{ k }}={{ v }};{% endfor %}",
        "a=2;b=1;",
        None,
    ),
    ("{{ 21 | double }}", "42", None),
    (
        "ab{{ \"x\" | double }}",
        "ab",
        Some("function `double` expects i64 argument, found string"),
    ),
    (
        "ab{{ double() }}",
        "ab",
        Some("function expects 1 arguments, 0 provided"),
    ),
    (
        "ab{% if double() %}{% endif %}",
        "ab",
        Some("function expects 1 arguments, 0 provided"),
    ),
    (
        "ab{{ 300 | low }}",
        "ab",
        Some("function `low` expects u8 argument, but `300` is out of range"),
    ),
    ("{{ (1 | fmt) }}", "1", None),
    (
        "ab{{ [(1 | fmt)] }}",
        "ab",
        Some("expected function, found formatter"),
    ),
];

const TEMPLATES: &[(&str, &str)] = &[
    ("t", "{{ a }}"),
    ("hello", "Hello {{ user.name }}!"),
    ("goodbye", "Goodbye {{ user.name }}!"),
];

// The callables of the tests, and three templates.
fn engine_of_rows<'e>(alloc: Global) -> Result<Engine<'e>> {
    let mut engine = engine(alloc)?;
    for (name, source) in TEMPLATES {
        engine.add_template(CowStr::Borrowed(name), CowStr::Borrowed(source))?;
    }
    Ok(engine)
}

// The text is the row's, or its fault, or memory is out.
fn text_ends_so(rt: &impl Abort, end: Result<String>, wanted: &str, reason: Option<&str>) {
    match end {
        Ok(text) => assert!(rt; reason.is_none() && text.as_str() == wanted, "{text}"),
        Err(error) => {
            if !is_out(&error) {
                assert!(rt; reason.is_some() && error.reason() == reason, "{error}");
            }
        }
    }
}

// The end is the row's, with all of its text received, or memory is out after a beginning of the text.
fn ends_so(rt: &impl Abort, end: Result<()>, out: &Expects<'_>, reason: Option<&str>) {
    assert!(rt; !out.is_other);
    match end {
        Ok(()) => assert!(rt; reason.is_none() && out.wanted.is_empty()),
        Err(error) => {
            if is_out(&error) {
                assert!(rt; error.place().is_none() && error.template_name().is_none());
            } else {
                assert!(rt; reason.is_some() && error.reason() == reason, "{error}");
                assert!(rt; out.wanted.is_empty());
            }
        }
    }
}

fn written(rt: &impl Abort, alloc: Global, row: &Row) -> Result<()> {
    let (source, wanted, reason) = *row;
    let engine = engine_of_rows(alloc)?;
    let context = value! { in alloc; user: {name: "John Smith"} }?;
    let template = engine.compile(CowStr::Borrowed(source))?;
    let mut out = Expects {
        wanted: wanted.as_bytes(),
        is_other: false,
    };
    let end = template.render_from(&engine, &context).to_writer(&mut out);
    ends_so(rt, end, &out, reason);
    let text = template.render_from(&engine, &context).to_string();
    text_ends_so(rt, text, wanted, reason);
    Ok(())
}

#[test]
fn writers(rt: HostRuntime) -> std::result::Result<(), Fail> {
    let alloc = rt.alloc();
    for row in ROWS {
        if let Err(error) = written(&rt, alloc, row) {
            assert!(&rt; is_out(&error), "{error}");
        }
    }
    Ok(())
}

// Sources, and the picture of the fault of each.
const SHOWN: &[(&str, &str)] = &[
    (
        "\u{e9}\n{{ x }}",
        "render error

  --> <anonymous>:2:4
   |
 2 | {{ x }}
   |    ^--
   |
   = reason: not found in this scope
",
    ),
    (
        "{{\n",
        "invalid syntax

  --> <anonymous>:2:1
   |
 2 | 
   | ^--
   |
   = reason: expected token, found EOF
",
    ),
];

// The fault of a source has this picture, or memory is out.
fn shows_so(rt: &impl Abort, alloc: Global, source: &str, wanted: &str) {
    match Engine::new(alloc).render_text(source, &Value::None) {
        Ok(text) => panic!(rt; "{text}"),
        Err(error) => {
            if let Ok(text) = error.pretty(alloc) {
                assert!(rt; is_out(&error) || text.as_str() == wanted, "{text}");
            }
        }
    }
}

#[test]
fn pictures(rt: HostRuntime) {
    for (source, wanted) in SHOWN {
        shows_so(&rt, rt.alloc(), source, wanted);
    }
}

// What the engine's template `u` answers, or that memory is out.
fn still_answers(rt: &impl Abort, engine: &Engine<'_>, wanted: &str) {
    let Some(template) = engine.get_template("u") else {
        panic!(rt; "no template");
    };
    match template.render_from(&Value::None).to_string() {
        Ok(text) => assert_eq!(rt; text.as_str(), wanted),
        Err(error) => assert!(rt; is_out(&error), "{error}"),
    }
}

// Puts a formatter in the place of the function `double`, if there is memory for it.
fn replaces_double(engine: &mut Engine<'_>, alloc: Global) -> std::result::Result<(), AllocError> {
    let plain = Box::new(alloc, fmt::DefaultFormat)?;
    engine.add_formatter(CowStr::Borrowed("double"), plain)?;
    Ok(())
}

// Puts another function there, if there is memory for it.
fn adds_other(engine: &mut Engine<'_>, alloc: Global) -> std::result::Result<(), AllocError> {
    let double = Box::new(alloc, Fn1::new(Double))?;
    engine.add_function(CowStr::Borrowed("other"), double)?;
    Ok(())
}

fn additions(rt: &impl Abort, alloc: Global) -> Result<()> {
    let mut engine = engine(alloc)?;
    let source = "{{ 1 | double }}";
    engine.add_template(CowStr::Borrowed("u"), CowStr::Borrowed(source))?;
    assert!(rt;
        engine
            .add_template(CowStr::Borrowed("u"), CowStr::Borrowed("{{"))
            .is_err()
    );
    still_answers(rt, &engine, "2");
    let is_added = adds_other(&mut engine, alloc).is_ok();
    still_answers(rt, &engine, "2");
    assert_eq!(rt; engine.remove_callable("other").is_some(), is_added);
    let (wanted, removed) = match replaces_double(&mut engine, alloc) {
        Ok(()) => ("1", EngineCallable::Formatter),
        Err(_) => ("2", EngineCallable::Function),
    };
    still_answers(rt, &engine, wanted);
    assert_eq!(rt; engine.remove_callable("double"), Some(removed));
    Ok(())
}

#[test]
fn refused_additions(rt: HostRuntime) -> std::result::Result<(), Fail> {
    if let Err(error) = additions(&rt, rt.alloc()) {
        assert!(&rt; is_out(&error), "{error}");
    }
    Ok(())
}

// It writes two letters, marks that memory is out, and answers that all is well.
#[derive(Drop)]
struct Swallows;

impl Format for Swallows {
    ghost use Rattle.upon_meaning_spec.specs.DefaultFormat.{default_format};

    ghost formats = { λ _. default_format };

    fn format(&self, f: &mut Formatter, _value: &Value) -> fmt::Result {
        f.write_str("ab")?;
        f.out_of_memory();
        Ok(())
    }
}

// It goes on if there is no memory for its letters, and answers that all is well.
#[derive(Drop)]
struct GoesOn;

impl Format for GoesOn {
    ghost use Rattle.upon_callable_tests.specs.Growths.{four_letters};

    ghost formats = { λ _. four_letters };

    fn format(&self, f: &mut Formatter, _value: &Value) -> fmt::Result {
        match f.write_str("abcd") {
            Ok(()) => Ok(()),
            Err(_) => Ok(()),
        }
    }
}

fn going_on(rt: &impl Abort, alloc: Global) -> Result<()> {
    let mut engine = Engine::new(alloc);
    engine.add_formatter(CowStr::Borrowed("letters"), Box::new(alloc, GoesOn)?)?;
    let template = engine.compile(CowStr::Borrowed("x{{ 1 | letters }}y"))?;
    let mut out = Expects {
        wanted: b"xabcdy".as_slice(),
        is_other: false,
    };
    let end = template
        .render_from(&engine, &Value::None)
        .to_writer(&mut out);
    ends_so(rt, end, &out, None);
    Ok(())
}

#[test]
fn a_refused_append_is_not_passed_over(rt: HostRuntime) -> std::result::Result<(), Fail> {
    if let Err(error) = going_on(&rt, rt.alloc()) {
        assert!(&rt; is_out(&error), "{error}");
    }
    Ok(())
}

// Memory is out at each call.
#[derive(Drop)]
struct NoMemory;

impl Function for NoMemory {
    ghost use Rattle.upon_types.specs.Answers.{gives};
    ghost use Rattle.upon_types.specs.Val.{none_val};

    ghost answers = { λ _ _. gives none_val };

    fn call(&self, _alloc: Global, _args: &[ValueCow]) -> std::result::Result<Value, CallError> {
        Err(CallError::Memory)
    }
}

// It counts how often it is asked, and finds no memory.
#[derive(Drop)]
struct Asked {
    times: u32,
}

impl CallPath for Asked {
    ghost use Rattle.std.specs.Prelude.{ℕ, ◌+◌, ◌%◌, ◌^◌};
    ghost use Rattle.upon_types.specs.Val.{none_val};
    ghost use Rattle.upon_render.specs.Finding.{reply};
    ghost use Rattle.upon_render.specs.Source.{says};

    ghost State = { ℕ };

    ghost call_state = { λ s. s.times };

    ghost answers_path = { λ n _. reply (says none_val) ((n + 1) % 2 ^ 32) };

    fn call(&mut self, _path: &[ValueMember]) -> std::result::Result<Value, SourceError> {
        self.times = self.times.wrapping_add(1);
        Err(SourceError::Memory)
    }
}

const STARVED: &[&str] = &[
    "x{{ 1 | swallows }}y",
    "x{{ starved() }}y",
    "x{% if starved() %}y{% endif %}",
];

// Memory is out after the first letter.
fn starves(rt: &impl Abort, engine: &Engine<'_>, source: &str) -> Result<()> {
    let template = engine.compile(CowStr::Borrowed(source))?;
    let mut out = Expects {
        wanted: b"x".as_slice(),
        is_other: false,
    };
    let end = template
        .render_from(engine, &Value::None)
        .to_writer(&mut out);
    assert!(rt; end.is_err_and(|error| is_out(&error)), "{source}");
    assert!(rt; !out.is_other, "{source}");
    Ok(())
}

fn without_memory(rt: &impl Abort, alloc: Global) -> Result<()> {
    let mut engine = Engine::new(alloc);
    engine.add_formatter(CowStr::Borrowed("swallows"), Box::new(alloc, Swallows)?)?;
    engine.add_function(CowStr::Borrowed("starved"), Box::new(alloc, NoMemory)?)?;
    for source in STARVED {
        starves(rt, &engine, source)?;
    }
    Ok(())
}

#[test]
fn callables_without_memory(rt: HostRuntime) -> std::result::Result<(), Fail> {
    if let Err(error) = without_memory(&rt, rt.alloc()) {
        assert!(&rt; is_out(&error), "{error}");
    }
    Ok(())
}

fn asked_once(rt: &impl Abort, alloc: Global) -> Result<()> {
    let engine = Engine::new(alloc);
    let template = engine.compile(CowStr::Borrowed("x{{ a }}{{ b }}"))?;
    let mut source = ValueFn::new(Asked { times: 0 });
    let text = template.render_from_fn(&engine, &mut source).to_string();
    assert!(rt; text.is_err_and(|error| is_out(&error)));
    assert!(rt; source.callable.times < 2);
    Ok(())
}

#[test]
fn a_source_without_memory_is_asked_once(rt: HostRuntime) -> std::result::Result<(), Fail> {
    if let Err(error) = asked_once(&rt, rt.alloc()) {
        assert!(&rt; is_out(&error), "{error}");
    }
    Ok(())
}
