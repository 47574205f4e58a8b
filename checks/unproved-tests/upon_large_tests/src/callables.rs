// How often callables are called, how many there may be, and which error of a writer is reported.
ghost use Rattle.upon_large_tests.specs.Callables.{doubled, same};

use std::alloc::{AllocError, Global};
use std::borrow::CowStr;
use std::cell::Cell;
use std::io::{self, Write};
use std::rc::Rc;
use std::test::Fail;
use upon::fmt::{self, Format, Formatter};
use upon::functions::{Call1, Call1S, Fn1, Fn1S};
use upon::{Engine, Value};
use upon_examples::answers::line_of;

// Twice an integer. It counts its calls.
#[derive(Drop)]
struct CountedDouble {
    calls: Rc<Cell<u32>>,
}

impl Call1<i64, i64> for CountedDouble {
    ghost meaning = { λ _. doubled };

    fn call(&self, _alloc: Global, first: i64) -> i64 {
        self.calls.set(self.calls.get().saturating_add(1));
        first.wrapping_add(first)
    }
}

// The default formatter. It counts its calls.
#[derive(Drop)]
struct CountedFormat {
    calls: Rc<Cell<u32>>,
}

impl Format for CountedFormat {
    ghost use Rattle.upon_meaning_spec.specs.DefaultFormat.{default_format};

    ghost formats = { λ _. default_format };

    fn format(&self, f: &mut Formatter, value: &Value) -> fmt::Result {
        self.calls.set(self.calls.get().saturating_add(1));
        fmt::default(f, value)
    }
}

// A formatter that counts its calls there.
fn counted(alloc: Global, calls: &Rc<Cell<u32>>) -> Result<Box<CountedFormat>, AllocError> {
    let format = CountedFormat {
        calls: calls.clone()?,
    };
    Ok(Box::new(alloc, format)?)
}

// How often the callables are called.
#[derive(Drop)]
struct Counts {
    double: Rc<Cell<u32>>,
    plain: Rc<Cell<u32>>,
    default: Rc<Cell<u32>>,
}

impl Counts {
    fn new(alloc: Global) -> Result<Counts, AllocError> {
        Ok(Counts {
            double: Rc::new(alloc, Cell::new(0))?,
            plain: Rc::new(alloc, Cell::new(0))?,
            default: Rc::new(alloc, Cell::new(0))?,
        })
    }

    // An engine whose callables count there.
    fn engine<'e>(&self, alloc: Global) -> Result<Engine<'e>, AllocError> {
        let mut engine = Engine::new(alloc);
        let double = Fn1::new(CountedDouble {
            calls: self.double.clone()?,
        });
        engine.add_function(CowStr::Borrowed("double"), Box::new(alloc, double)?)?;
        engine.add_formatter(CowStr::Borrowed("plain"), counted(alloc, &self.plain)?)?;
        engine.set_default_formatter(counted(alloc, &self.default)?);
        Ok(engine)
    }
}

// What a source answers, alone or where all is escaped, and how often it calls the function `double`, the formatter
// `plain` and the default one.
fn calls(
    alloc: Global,
    source: &str,
    is_escaped: bool,
) -> Result<(String, u32, u32, u32), AllocError> {
    let counts = Counts::new(alloc)?;
    let engine = counts.engine(alloc)?;
    let rendered = if is_escaped {
        upon_html::pages::render_text(&engine, source, &Value::None)
    } else {
        engine.render_text(source, &Value::None)
    };
    let line = line_of(alloc, rendered)?;
    let Counts {
        double,
        plain,
        default,
    } = &counts;
    Ok((line, double.get(), plain.get(), default.get()))
}

const CALLS_FUNCTIONS: &str =
    "{{ double(1) | double }}{% if double(1) %}{% else %}{{ double(1) }}{% endif %}";

#[test]
fn functions_are_called_once(rt: HostRuntime) -> Result<(), Fail> {
    let (text, times, _, _) = calls(rt.alloc(), CALLS_FUNCTIONS, false)?;
    assert!(&rt; text.as_str() == "4" && times == 3, "{text} {times}");
    Ok(())
}

#[test]
fn functions_are_called_once_on_pages(rt: HostRuntime) -> Result<(), Fail> {
    let (text, times, _, _) = calls(rt.alloc(), CALLS_FUNCTIONS, true)?;
    assert!(&rt; text.as_str() == "4" && times == 3, "{text} {times}");
    Ok(())
}

const CALLS_FORMATTERS: &str = "{{ 3 | plain }}{% if false %}{{ 1 | plain }}{% endif %}";

#[test]
fn formatters_are_called_once(rt: HostRuntime) -> Result<(), Fail> {
    let (text, _, times, others) = calls(rt.alloc(), CALLS_FORMATTERS, false)?;
    assert!(&rt; text.as_str() == "3" && times == 1 && others == 0, "{text} {times}");
    Ok(())
}

#[test]
fn formatters_are_called_once_on_pages(rt: HostRuntime) -> Result<(), Fail> {
    let (text, _, times, others) = calls(rt.alloc(), CALLS_FORMATTERS, true)?;
    assert!(&rt; text.as_str() == "3" && times == 1 && others == 0, "{text} {times}");
    Ok(())
}

#[test]
fn formatters_of_more_values_are_not_called(rt: HostRuntime) -> Result<(), Fail> {
    let (text, _, times, _) = calls(rt.alloc(), "{{ 3 | plain: 2 }}", false)?;
    let wanted = "render error: formatter expects 1 argument, 2 provided at 7..12";
    assert!(&rt; text.as_str() == wanted && times == 0, "{text} {times}");
    Ok(())
}

const SHOWS: &str = "{{ 5 }}{{ 1 }}{% if 5 %}{% else %}{{ 5 }}{% endif %}";

#[test]
fn the_default_formatter_is_called_once(rt: HostRuntime) -> Result<(), Fail> {
    let (text, _, others, times) = calls(rt.alloc(), SHOWS, false)?;
    assert!(&rt; text.as_str() == "51" && times == 2 && others == 0, "{text} {times}");
    Ok(())
}

#[test]
fn the_default_formatter_is_called_once_on_pages(rt: HostRuntime) -> Result<(), Fail> {
    let (text, _, others, times) = calls(rt.alloc(), SHOWS, true)?;
    assert!(&rt; text.as_str() == "51" && times == 2 && others == 0, "{text} {times}");
    Ok(())
}

// It takes nothing, and says why, or takes no byte of what it is given.
#[derive(Drop)]
struct Broken {
    kind: Option<io::ErrorKind>,
}

impl Write for Broken {
    fn write(&mut self, _bytes: &[u8]) -> io::Result<usize> {
        match self.kind {
            Some(kind) => Err(kind.into()),
            None => Ok(0),
        }
    }

    fn flush(&mut self) -> io::Result<()> {
        Ok(())
    }
}

// The kind of the writer's error that a rendering reports.
fn reported(
    engine: &Engine<'_>,
    source: &str,
    kind: Option<io::ErrorKind>,
) -> Option<io::ErrorKind> {
    let template = engine.compile(CowStr::Borrowed(source)).ok()?;
    let ended = template
        .render_from(engine, &Value::None)
        .to_writer(&mut Broken { kind });
    ended.err()?.io_error().map(|error| error.kind())
}

#[test]
fn the_error_is_the_writers(rt: HostRuntime) -> Result<(), Fail> {
    let alloc = rt.alloc();
    let mut engine = Engine::new(alloc);
    let plain = Box::new(alloc, fmt::DefaultFormat)?;
    engine.add_formatter(CowStr::Borrowed("plain"), plain)?;
    for source in ["a", "{{ 1 }}", "{{ 1 | plain }}"] {
        for kind in [
            io::ErrorKind::BrokenPipe,
            io::ErrorKind::Interrupted,
            io::ErrorKind::NotFound,
            io::ErrorKind::OutOfMemory,
        ] {
            assert!(&rt;
                reported(&engine, source, Some(kind)) == Some(kind),
                "{source}"
            );
        }
        assert!(&rt;
            reported(&engine, source, None) == Some(io::ErrorKind::WriteZero),
            "{source}"
        );
    }
    Ok(())
}

#[test]
fn many_callables(rt: HostRuntime) -> Result<(), Fail> {
    let alloc = rt.alloc();
    let mut engine = Engine::new(alloc);
    for i in 0..200u32 {
        let name = format!(in alloc; "f{i}")?;
        let plain = Box::new(alloc, fmt::DefaultFormat)?;
        engine.add_formatter(CowStr::Owned(name), plain)?;
    }
    for source in ["{{ 1 | f0 }}", "{{ 1 | f39 }}", "{{ 1 | f199 }}"] {
        let template = engine.compile(CowStr::Borrowed(source))?;
        let text = template.render_from(&engine, &Value::None).to_string()?;
        assert_eq!(&rt; text.as_str(), "1", "{source}");
    }
    Ok(())
}

// The text that it is given.
#[derive(Drop)]
struct Same;

impl Call1S<Result<String, AllocError>> for Same {
    ghost meaning = { λ _. same };

    fn call(&self, alloc: Global, first: &str) -> Result<String, AllocError> {
        String::from_str(alloc, first)
    }
}

// An engine whose callables hand on what they are given, or twice an integer.
pub fn handing_on<'e>(alloc: Global) -> Result<Engine<'e>, AllocError> {
    let mut engine = Engine::new(alloc);
    engine.add_function(CowStr::Borrowed("same"), Box::new(alloc, Fn1S::new(Same))?)?;
    let double = Fn1::new(CountedDouble {
        calls: Rc::new(alloc, Cell::new(0u32))?,
    });
    engine.add_function(CowStr::Borrowed("double"), Box::new(alloc, double)?)?;
    let plain = Box::new(alloc, fmt::DefaultFormat)?;
    engine.add_formatter(CowStr::Borrowed("plain"), plain)?;
    Ok(engine)
}

// How often a text is doubled.
const DOUBLED: usize = 20; // ./test: 16

#[test]
fn large_texts_are_handed_on(rt: HostRuntime) -> Result<(), Fail> {
    let alloc = rt.alloc();
    let engine = handing_on(alloc)?;
    let source = "{{ x | same }}{{ x | plain }}{{ x }}{% if not x | same | same %}!{% endif %}";
    let template = engine.compile(CowStr::Borrowed(source))?;
    let mut text = String::from_str(alloc, "x")?;
    for _ in 0..DOUBLED {
        let half = text.clone()?;
        text.push_str(half.as_str())?;
        let x = Value::from_text(alloc, text.as_str())?;
        let context = Value::from_pairs(alloc, [(String::from_str(alloc, "x")?, x)])?;
        let rendered = template.render_from(&engine, &context).to_string()?;
        assert_eq!(&rt; rendered.len(), text.len().wrapping_mul(3));
    }
    Ok(())
}

#[test]
fn great_numbers_are_handed_on(rt: HostRuntime) -> Result<(), Fail> {
    let alloc = rt.alloc();
    let engine = handing_on(alloc)?;
    let source = "{{ x }} {{ x | plain }} {{ x | double }}";
    let template = engine.compile(CowStr::Borrowed(source))?;
    let mut number = 1i64;
    for _ in 0..61 {
        number = number.wrapping_mul(2);
        let twice = number.wrapping_mul(2);
        let x = Value::from(number);
        let context = Value::from_pairs(alloc, [(String::from_str(alloc, "x")?, x)])?;
        let text = template.render_from(&engine, &context).to_string()?;
        let wanted = format!(in alloc; "{number} {number} {twice}")?;
        assert!(&rt; text == wanted, "{text}");
    }
    Ok(())
}

// A hundred letters.
const TEXT: &str =
    "0123456789012345678901234567890123456789012345678901234567890123456789012345678901234567890123456789";

#[test]
fn a_thousand_texts_are_lent(rt: HostRuntime) -> Result<(), Fail> {
    let alloc = rt.alloc();
    let engine = handing_on(alloc)?;
    let mut items = Vec::new(alloc);
    let mut wanted = String::new(alloc);
    for _ in 0..1000u32 {
        items.push(Value::from_text(alloc, TEXT)?)?;
        wanted.push_str(TEXT)?;
    }
    let context = Value::from_pairs(
        alloc,
        [(String::from_str(alloc, "xs")?, Value::List(items))],
    )?;
    let source = "{% for x in xs %}{{ x | same }}{% endfor %}";
    let template = engine.compile(CowStr::Borrowed(source))?;
    let text = template.render_from(&engine, &context).to_string()?;
    assert!(&rt; text == wanted);
    Ok(())
}
