// Templates that a function over a map gives: how often it is asked, what it refuses, and that it finds no memory.
use std::alloc::Global;
use std::borrow::CowStr;
use std::cell::Cell;
use std::collections::BTreeMap;
use std::process::Abort;
use std::test::Fail;
use upon::render::{SourceError, TemplateSource};
use upon::{Engine, Template, Value, value};
use upon_examples::answers::line_of;

// It counts how often it is asked. Of the name `memory` it says that memory is out.
#[derive(Clone, Copy)]
struct Pages<'r> {
    alloc: Global,
    templates: &'r BTreeMap<String, Template<'r>>,
    asked: &'r Cell<u32>,
}

impl<'r> TemplateSource<'r> for Pages<'r> {
    ghost use Rattle.std.specs.Prelude.{[]};
    ghost use Rattle.std.specs.BTreeMap.{get_by_text};
    ghost use Rattle.upon.proofs.TemplateSpans.{handed_on_lie};
    ghost use Rattle.upon_engine.specs.HandsOn.{hands_on};
    ghost use Rattle.upon_large_tests.specs.Pages.{answers_of};

    ghost State = { Unit {0} };

    ghost template_state = { λ _. tt };

    ghost resolve = { λ s. hands_on (answers_of (get_by_text s.templates.now)) };

    ghost holds = { λ _. [] };

    ghost templates_lie = { λ s. handed_on_lie (answers_of (get_by_text s.templates.now)) };

    fn template(&mut self, name: &str) -> Result<&'r Template<'r>, SourceError> {
        self.asked.set(self.asked.get().saturating_add(1));
        if name == "memory" {
            return Err(SourceError::Memory);
        }
        match self.templates.get(name) {
            Some(template) => Ok(template.lent()),
            None => match String::from_str(self.alloc, "template not found") {
                Ok(reason) => Err(SourceError::Refused(reason)),
                Err(_) => Err(SourceError::Memory),
            },
        }
    }
}

// The text of a template on a context, with the templates of a function.
fn with_pages<'r>(
    engine: &'r Engine<'_>,
    template: &'r Template<'_>,
    context: &'r Value,
    mut pages: Pages<'r>,
    is_lent: bool,
) -> upon::Result<String> {
    let rendering = template.render_from(engine, context);
    if is_lent {
        rendering.with_template_fn(&mut pages).to_string()
    } else {
        rendering.with_template_fn(pages).to_string()
    }
}

// A source answers so, on John, and asks so often for a template.
fn answers(
    rt: &impl Abort,
    alloc: Global,
    (source, wanted, times): (&str, &str, u32),
    is_lent: bool,
) -> Result<(), Fail> {
    let engine = Engine::new(alloc);
    let mut templates = BTreeMap::new(alloc);
    for (name, page) in [
        ("hello", "Hello {{ user.name }}!"),
        ("goodbye", "Goodbye {{ user.name }}!"),
    ] {
        let template = engine.compile(CowStr::Borrowed(page))?;
        drop(templates.insert(String::from_str(alloc, name)?, template)?);
    }
    let asked = Cell::new(0u32);
    let pages = Pages {
        alloc,
        templates: &templates,
        asked: &asked,
    };
    let template = engine.compile(CowStr::Borrowed(source))?;
    let context = value! { in alloc; user: {name: "John Smith"} }?;
    let line = line_of(alloc, with_pages(&engine, &template, &context, pages, is_lent))?;
    assert_eq!(rt; line.as_str(), wanted);
    assert_eq!(rt; asked.get(), times);
    Ok(())
}

// Sources, what they answer, and how often they ask.
const ROWS: [(&str, &str, u32); 5] = [
    (
        "{% include \"hello\" %}\n{% include \"goodbye\" %}",
        "Hello John Smith!\nGoodbye John Smith!",
        2,
    ),
    (
        "{% include \"x\" %}{% include \"hello\" %}",
        "render error: template not found at 11..14",
        1,
    ),
    (
        "{% include \"memory\" %}{% include \"hello\" %}",
        "out of memory",
        1,
    ),
    ("{% if 0 %}{% include \"hello\" %}{% endif %}b", "b", 0),
    (
        "{% include \"hello\" with z %}",
        "render error: not found in this scope at 24..25",
        0,
    ),
];

#[test]
fn templates_of_a_function(rt: HostRuntime) -> Result<(), Fail> {
    for row in ROWS {
        answers(&rt, rt.alloc(), row, false)?;
    }
    Ok(())
}

#[test]
fn templates_of_a_lent_function(rt: HostRuntime) -> Result<(), Fail> {
    for row in ROWS {
        answers(&rt, rt.alloc(), row, true)?;
    }
    Ok(())
}
