// Each case: what a writer receives, and of an error the line, with its span and its template's name, and the picture.
use crate::callables::{add, set_default};
use crate::rows::{ROWS, Row};
use std::alloc::{AllocError, Global};
use std::borrow::CowStr;
use std::io::{self, Write};
use std::test::Fail;
use upon::{Engine, Error, Syntax, Value};
use upon_json::context::context;
use upon_examples::answers::describe;

// It takes one byte a call. The call of this number fails.
#[derive(Drop)]
struct Drops {
    bytes: Vec<u8>,
    calls: usize,
    failing: usize,
}

impl Write for Drops {
    fn write(&mut self, bytes: &[u8]) -> io::Result<usize> {
        self.calls = self.calls.saturating_add(1);
        let Some(byte) = bytes.first() else {
            return Ok(0);
        };
        if self.calls == self.failing {
            return Err(io::Error::from(io::ErrorKind::Other));
        }
        match self.bytes.push(*byte) {
            Ok(()) => Ok(1),
            Err(_) => Err(io::Error::from(io::ErrorKind::OutOfMemory)),
        }
    }

    fn flush(&mut self) -> io::Result<()> {
        Ok(())
    }
}

// The delimiters of a case.
fn syntax_of(alloc: Global, row: &Row) -> Result<Syntax, AllocError> {
    let mut builder = Syntax::builder();
    for (sort, begin, end) in row.syntax {
        match *sort {
            "expr" => builder.expr(begin, end),
            "block" => builder.block(begin, end),
            _ => builder.comment(begin, end),
        };
    }
    builder.build(alloc)
}

// The engine of a case, without the template that is rendered.
fn engine_of(alloc: Global, row: &Row) -> Result<Engine<'static>, Fail> {
    let mut engine = Engine::new(alloc);
    engine.set_max_include_depth(row.depth);
    if row.has_syntax {
        engine.set_syntax(syntax_of(alloc, row)?);
    }
    for name in row.callables {
        add(&mut engine, alloc, name)?;
    }
    if !row.default_formatter.is_empty() {
        set_default(&mut engine, alloc, row.default_formatter)?;
    }
    for (name, source) in row.templates {
        engine.add_template(CowStr::Borrowed(name), CowStr::Borrowed(source))?;
    }
    Ok(engine)
}

// Renders a case to a writer.
fn render(
    alloc: Global,
    row: &Row,
    context: &Value,
    out: &mut Drops,
) -> Result<Result<(), Error>, Fail> {
    let mut engine = engine_of(alloc, row)?;
    if !row.has_name {
        return Ok(match engine.compile(CowStr::Borrowed(row.source)) {
            Ok(template) => template.render_from(&engine, context).to_writer(out),
            Err(error) => Err(error),
        });
    }
    if let Err(error) = engine.add_template(
        CowStr::Borrowed(row.name),
        CowStr::Borrowed(row.source),
    ) {
        return Ok(Err(error));
    }
    match engine.get_template(row.name) {
        Some(template) => Ok(template.render_from(context).to_writer(out)),
        None => Err(Fail::new(format_args!("no template"))),
    }
}

// What a case answers: the line of its error and the picture; a good end has none.
fn end_of(alloc: Global, end: Result<(), Error>) -> Result<String, AllocError> {
    match end {
        Ok(()) => Ok(String::new(alloc)),
        Err(error) => {
            let mut text = describe(alloc, &error)?;
            text.push('\n')?;
            text.push_str(error.pretty(alloc)?.as_str())?;
            Ok(text)
        }
    }
}

#[test]
fn each_answers(rt: HostRuntime) -> Result<(), Fail> {
    let alloc = rt.alloc();
    for row in ROWS {
        let Ok(value) = context(alloc, Some(row.context), &[]) else {
            return Err(Fail::new(format_args!("{}: the context is none", row.id)));
        };
        let mut out = Drops {
            bytes: Vec::new(alloc),
            calls: 0,
            failing: row.fails_at,
        };
        let ended = render(alloc, row, &value, &mut out)?;
        let end = end_of(alloc, ended)?;
        if out.bytes.as_slice() != row.written.as_bytes() || end.as_str() != row.end {
            let received = out.bytes.as_slice();
            return Err(Fail::new(format_args!(
                "{}: {received:?}, {end:?} in place of {:?}",
                row.id, row.end
            )));
        }
    }
    Ok(())
}
