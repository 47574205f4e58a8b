// Callables and sources that refuse: with long reasons, with none, and after they have written.
ghost use Rattle.upon_large_tests.specs.Callables.{fourth_refused, refused_so, written_first};

use std::alloc::{AllocError, Global};
use std::borrow::CowStr;
use std::process::Abort;
use std::test::Fail;
use upon::error::ErrorKind;
use upon::fmt::{self, Format, Formatter};
use upon::functions::{ArgError, Call1S, CallError, Fn1S, Function};
use upon::render::{CallName, SourceError, TemplateFn};
use upon::{Engine, Template, Value};
use upon_examples::answers::{answer, describe, line_of};
use upon_types::value::ValueCow;

// It refuses with the text that it is given.
#[derive(Drop)]
struct Refuses;

impl Call1S<Result<Result<bool, String>, AllocError>> for Refuses {
    ghost meaning = { λ _. refused_so };

    fn call(&self, alloc: Global, first: &str) -> Result<Result<bool, String>, AllocError> {
        Ok(Err(String::from_str(alloc, first)?))
    }
}

// It refuses its fourth argument.
#[derive(Drop)]
struct WantsFourth;

impl Function for WantsFourth {
    ghost answers = { λ _. fourth_refused };

    fn call(&self, _alloc: Global, _args: &[ValueCow]) -> Result<Value, CallError> {
        Err(CallError::Arg(3, ArgError::WrongType("bool")))
    }
}

// It writes what is usual, and then refuses.
#[derive(Drop)]
struct WritesFirst;

impl Format for WritesFirst {
    ghost formats = { λ _. written_first };

    fn format(&self, f: &mut Formatter, value: &Value) -> fmt::Result {
        fmt::default(f, value)?;
        match fmt::Error::from_text(f.allocator(), "bad") {
            Ok(error) => Err(error),
            Err(_) => {
                f.out_of_memory();
                Err(fmt::Error::from(std::fmt::Error))
            }
        }
    }
}

// An engine with these.
fn refusing<'e>(alloc: Global) -> Result<Engine<'e>, AllocError> {
    let mut engine = Engine::new(alloc);
    engine.add_function(CowStr::Borrowed("no"), Box::new(alloc, Fn1S::new(Refuses))?)?;
    engine.add_function(CowStr::Borrowed("fourth"), Box::new(alloc, WantsFourth)?)?;
    engine.add_formatter(CowStr::Borrowed("first"), Box::new(alloc, WritesFirst)?)?;
    Ok(engine)
}

// A source answers this.
fn is(rt: &impl Abort, alloc: Global, source: &str, wanted: &str) -> Result<(), Fail> {
    let line = answer(alloc, &refusing(alloc)?, source, &Value::None)?;
    assert!(rt; line.as_str() == wanted, "{line}");
    Ok(())
}

#[test]
fn an_empty_reason(rt: HostRuntime) -> Result<(), Fail> {
    is(&rt, rt.alloc(), "{{ \"\" | no }}", "function error:  at 8..10")
}

#[test]
fn the_fourth_argument(rt: HostRuntime) -> Result<(), Fail> {
    let wanted =
        "render error: function `fourth` expects bool argument, found integer at 19..20";
    is(&rt, rt.alloc(), "{{ fourth(1, 2, 3, 4) }}", wanted)
}

// An `x` doubled so often.
fn doubled(alloc: Global, times: u32) -> Result<String, AllocError> {
    let mut text = String::from_str(alloc, "x")?;
    for _ in 0..times {
        let half = text.clone()?;
        text.push_str(half.as_str())?;
    }
    Ok(text)
}

// The error of a function that refuses with this reason.
fn declined(alloc: Global, reason: &str) -> Result<upon::Error, Fail> {
    let source = format!(in alloc; "{{{{ \"{reason}\" | no }}}}")?;
    match refusing(alloc)?.render_text(source.as_str(), &Value::None) {
        Ok(_) => Err(Fail::new("no refusal")),
        Err(error) => Ok(error),
    }
}

#[test]
fn long_reasons(rt: HostRuntime) -> Result<(), Fail> {
    let alloc = rt.alloc();
    for times in 0..13 {
        let reason = doubled(alloc, times)?;
        let error = declined(alloc, reason.as_str())?;
        let line = format!(in alloc; "{error}")?;
        let wanted = format!(in alloc; "function error: {reason}")?;
        assert!(&rt; line == wanted, "{line}");
    }
    Ok(())
}

#[test]
fn pictures_of_long_reasons(rt: HostRuntime) -> Result<(), Fail> {
    let alloc = rt.alloc();
    for times in 0..13 {
        let reason = doubled(alloc, times)?;
        let picture = declined(alloc, reason.as_str())?.pretty(alloc)?;
        let wanted = format!(in alloc; "   |\n   = reason: {reason}\n")?;
        assert!(&rt; picture.as_str().ends_with(wanted.as_str()), "{picture}");
    }
    Ok(())
}

// A text is written, and then the formatter refuses.
#[test]
fn refusals_after_long_texts(rt: HostRuntime) -> Result<(), Fail> {
    let alloc = rt.alloc();
    let engine = refusing(alloc)?;
    for times in 0..14 {
        let text = doubled(alloc, times)?;
        let x = Value::from_text(alloc, text.as_str())?;
        let context = Value::from_pairs(alloc, [(String::from_str(alloc, "x")?, x)])?;
        let mut received = Vec::new(alloc);
        let Err(error) = engine.render_text_to("{{ x | first }}", &context, &mut received) else {
            return Err(Fail::new("no refusal"));
        };
        assert!(&rt; received.as_slice() == text.as_bytes());
        assert_eq!(&rt; describe(alloc, &error)?.as_str(), "format error: bad at 7..12");
    }
    Ok(())
}

// It refuses each name, with this reason.
#[derive(Drop)]
struct NoPage<'a> {
    alloc: Global,
    reason: &'a str,
}

impl<'r> CallName<'r> for NoPage<'_> {
    ghost use Rattle.std.specs.Prelude.{ℕ, List};
    ghost use Rattle.upon_render.specs.Finding.{reply};
    ghost use Rattle.upon_render.specs.Source.{refuses};

    ghost State = { List ℕ };

    ghost name_state = { λ s. s.reason.now };

    ghost answers_name = { λ reason _. reply (refuses reason) reason };

    fn call(&mut self, _name: &str) -> Result<&'r Template<'r>, SourceError> {
        match String::from_str(self.alloc, self.reason) {
            Ok(reason) => Err(SourceError::Refused(reason)),
            Err(_) => Err(SourceError::Memory),
        }
    }
}

// What a text answers, of which each include is refused with this reason.
fn answer_refused(alloc: Global, source: &str, reason: &str) -> Result<String, AllocError> {
    let engine = Engine::new(alloc);
    let template = match engine.compile(CowStr::Borrowed(source)) {
        Ok(template) => template,
        Err(error) => return describe(alloc, &error),
    };
    let mut pages = TemplateFn::new(NoPage { alloc, reason });
    let rendered = template
        .render_from(&engine, &Value::None)
        .with_template_fn(&mut pages)
        .to_string();
    line_of(alloc, rendered)
}

#[test]
fn templates_that_are_refused_at_length(rt: HostRuntime) -> Result<(), Fail> {
    let alloc = rt.alloc();
    for times in 0..13 {
        let reason = doubled(alloc, times)?;
        let line = answer_refused(alloc, "{% include \"x\" %}", reason.as_str())?;
        let wanted = format!(in alloc; "render error: {reason} at 11..14")?;
        assert!(&rt; line == wanted, "{line}");
    }
    Ok(())
}

// The function refuses, as a text is no template.
#[test]
fn a_template_whose_text_is_refused(rt: HostRuntime) -> Result<(), Fail> {
    let alloc = rt.alloc();
    for text in ["{{ a", "{% if 1 %}", "a }} b", "{{ \"a"] {
        let Err(error) = Engine::new(alloc).compile(CowStr::Borrowed(text)) else {
            return Err(Fail::new("a template"));
        };
        let reason = describe(alloc, &error)?;
        let line = answer_refused(alloc, "{% include \"x\" %}", reason.as_str())?;
        let wanted = format!(in alloc; "render error: {reason} at 11..14")?;
        assert!(&rt; line == wanted, "{line}");
    }
    Ok(())
}

// The text of an include, cut inside its tag, and inside a tag after it.
#[test]
fn cut_texts(rt: HostRuntime) -> Result<(), Fail> {
    let alloc = rt.alloc();
    for (source, wanted) in [
        ("{% include \"x\" %}", "render error: template not found at 11..14"),
        ("{% include \"x\" %}{{ a }}", "render error: template not found at 11..14"),
        ("{", "{"),
        ("{%", "invalid syntax: expected keyword, found EOF at 2..2"),
        ("{% include", "invalid syntax: expected string, found EOF at 10..10"),
        ("{% include \"x", "invalid syntax: undelimited string at 11..13"),
        ("{% include \"x\"", "invalid syntax: expected end block, found EOF at 14..14"),
        ("{% include \"x\" %", "invalid syntax: unexpected character at 15..16"),
        ("{% include \"x\" %}{{", "invalid syntax: expected token, found EOF at 19..19"),
        (
            "{% include \"x\" %}{{ a",
            "invalid syntax: expected end expression, found EOF at 21..21",
        ),
    ] {
        let line = answer_refused(alloc, source, "template not found")?;
        assert_eq!(&rt; line.as_str(), wanted, "{source}");
    }
    Ok(())
}

// Each part is a template, or is refused with a reason at a span inside it.
#[test]
fn each_cut_is_compiled(rt: HostRuntime) -> Result<(), Fail> {
    let alloc = rt.alloc();
    let text = "{% include \"x\" %}{{ a }}";
    for at in 0..=text.len() {
        let (part, _) = text.split_at_checked(at).unwrap_or(("", ""));
        if let Err(error) = Engine::new(alloc).compile(CowStr::Borrowed(part)) {
            assert!(&rt; matches!(error.kind(), ErrorKind::Syntax) && error.reason().is_some());
            let is_inside = error
                .place()
                .is_some_and(|span| part.get(span.m..span.n).is_some());
            assert!(&rt; is_inside, "{part}");
        }
    }
    Ok(())
}
