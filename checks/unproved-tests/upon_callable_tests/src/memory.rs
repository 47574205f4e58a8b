// What calls answer where a growth of memory may be refused: the same as ever, or that memory is out, and a refused
// call leaves the engine as it was. `checks/growths` refuses each in turn.
use crate::callables::engine;
use serde::Serialize;
use std::alloc::{AllocError, Global};
use std::borrow::CowStr;
use std::process::Abort;
use std::test::Fail;
use upon::compile::parse::Parser;
use upon::compile::search::Searcher;
use upon::error::ErrorKind;
use upon::functions::Fn1;
use upon::types::Span;
use upon::{Engine, Error, Result, Syntax, needs_of, value};
use upon_examples::callables::{Double, Half};

fn is_out(error: &Error) -> bool {
    matches!(error.kind(), ErrorKind::OutOfMemory)
}

// The result is this text, or memory is out.
fn text_ends_so(rt: &impl Abort, rendered: Result<String>, wanted: &str) {
    match rendered {
        Ok(text) => assert_eq!(rt; text.as_str(), wanted),
        Err(error) => assert!(rt; is_out(&error), "{error}"),
    }
}

// The result is a fault of this reason at this span, or memory is out.
fn fault_ends_so(rt: &impl Abort, rendered: Result<String>, reason: &str, span: Option<Span>) {
    match rendered {
        Ok(text) => panic!(rt; "{text}"),
        Err(error) => {
            if !is_out(&error) {
                assert_eq!(rt; error.reason(), Some(reason));
                assert!(rt; error.place() == span, "{error}");
            }
        }
    }
}

// The text of a source with the callables of the tests, and with two templates.
fn text_of(alloc: Global, source: &str) -> Result<String> {
    let mut engine = engine(alloc)?;
    engine.add_template(CowStr::Borrowed("t"), CowStr::Borrowed("{{ a }}"))?;
    engine.add_template(
        CowStr::Borrowed("hello"),
        CowStr::Borrowed("Hello {{ user.name }}!"),
    )?;
    let context = value! { in alloc; user: {name: "John Smith"}, none: {} }?;
    let template = engine.compile(CowStr::Borrowed(source))?;
    template.render_from(&engine, &context).to_string()
}

// Each source has the text of its row.
fn texts_end_so(rt: &impl Abort, alloc: Global, rows: &[(&str, &str)]) {
    for (source, wanted) in rows {
        text_ends_so(rt, text_of(alloc, source), wanted);
    }
}

// Each source ends with the fault of its row.
fn faults_end_so(rt: &impl Abort, alloc: Global, rows: &[(&str, &str, (usize, usize))]) {
    for (source, reason, (m, n)) in rows {
        let span = Some(Span { m: *m, n: *n });
        fault_ends_so(rt, text_of(alloc, source), reason, span);
    }
}

// Sources, and their texts.
const TEXTS: &[(&str, &str)] = &[
    ("Hello {{ user.name }}!", "Hello John Smith!"),
    (
        "{% for i in [1, 2] %}{{ i }}{% if not loop.last %},{% endif %}{% endfor %}",
        "1,2",
    ),
    ("{% include \"hello\" %}", "Hello John Smith!"),
    (
        "{% for k, v in {\"b\": 1, \"a\": 2} %}{{ k }}={{ v }};{% endfor %}",
        "a=2;b=1;",
    ),
    ("{{ 21 | double }}", "42"),
];

#[test]
fn texts(rt: HostRuntime) {
    texts_end_so(&rt, rt.alloc(), TEXTS);
}

// Sources, and the reason and span of the fault of each.
const FAULTS: &[(&str, &str, (usize, usize))] = &[
    ("{{ {\"a\": {\"b\": 1}} }}", "unclosed open brace", (9, 10)),
    ("{{ \"a\\q\" }}", "unknown escape character", (6, 7)),
    (
        "{% include \"t\" with 5 %}",
        "not found in this scope",
        (3, 4),
    ),
    (
        "{{ 1 | fmt: 2 }}",
        "formatter expects 1 argument, 2 provided",
        (7, 10),
    ),
    ("{{ \"a\" | no }}", "no", (9, 11)),
    ("{{ 1 | half }}", "bad", (7, 11)),
    (
        "{{ double() }}",
        "function expects 1 arguments, 0 provided",
        (3, 9),
    ),
];

#[test]
fn faults(rt: HostRuntime) {
    faults_end_so(&rt, rt.alloc(), FAULTS);
}

// Texts of which a fault of each kind is reported: of a delimiter, a number, an index, and what may not come next.
const REFUSED: &[(&str, &str, (usize, usize))] = &[
    ("a }} b", "unexpected end expression", (2, 4)),
    ("{{ -0b2 }}", "invalid digit for base 2 literal", (6, 7)),
    ("{{ 1.5 }}", "invalid float literal", (3, 6)),
    (
        "{{ a.18446744073709551616 }}",
        "base 10 literal out of range for unsigned 64-bit integer",
        (5, 25),
    ),
    (
        "{{ a b \"c",
        "expected end expression, found identifier",
        (5, 6),
    ),
    (
        "{{ {\"a\": {\"b\": 1} } }}",
        "expression evaluated to unformattable type map",
        (3, 19),
    ),
];

#[test]
fn refused_texts(rt: HostRuntime) {
    faults_end_so(&rt, rt.alloc(), REFUSED);
}

// Loops with another branch, over a context's empty map and in each other.
const BRANCHES: &[(&str, &str)] = &[
    (
        "{% for k, v in none %}a{% else %}{{ user.name }}{% endfor %}",
        "John Smith",
    ),
    (
        "{% for x in [1, 2] %}{{ x }}{% else %}{{ y }}{% endfor %}",
        "12",
    ),
    (
        "{% for x in [7, 8] %}{% for y in [] %}a{% else %}{{ loop.index }}{% endfor %}{% else %}b{% endfor %}",
        "01",
    ),
    (
        "{% for x in [] %}a{% else %}{% if none %}b{% else %}{% include \"hello\" %}{% endif %}{% endfor %}",
        "Hello John Smith!",
    ),
];

// Such loops with a fault.
const REFUSED_BRANCHES: &[(&str, &str, (usize, usize))] = &[
    (
        "{% for x in none %}a{% else %}b{% endfor %}",
        "cannot unpack map item into one variable",
        (7, 8),
    ),
    (
        "{% for x in [] %}a{% else %}b{{ x }}{% endfor %}",
        "not found in this scope",
        (32, 33),
    ),
    (
        "{% for x in [] %}{% else if 1 %}{% endfor %}",
        "unexpected `else if` block",
        (17, 32),
    ),
    (
        "{% for x in [] %}{% else %}{% else %}{% endfor %}",
        "unexpected `else` block",
        (27, 37),
    ),
];

#[test]
fn other_branches(rt: HostRuntime) {
    texts_end_so(&rt, rt.alloc(), BRANCHES);
    faults_end_so(&rt, rt.alloc(), REFUSED_BRANCHES);
}

#[derive(Drop, Serialize)]
struct User<'a> {
    name: &'a str,
    friends: [Option<&'a str>; 2],
}

// The text of a template on what serde writes of a context.
fn text_on<S: Serialize + Drop>(alloc: Global, context: S) -> Result<String> {
    let engine = Engine::new(alloc);
    let source = "{{ name }}:{% for friend in friends %} {{ friend }}{% endfor %}";
    let template = engine.compile(CowStr::Borrowed(source))?;
    template.render(&engine, context).to_string()
}

#[test]
fn contexts(rt: HostRuntime) -> std::result::Result<(), Fail> {
    let alloc = rt.alloc();
    let user = User {
        name: "Ann",
        friends: [Some("John"), None],
    };
    text_ends_so(&rt, text_on(alloc, user), "Ann: John ");
    let reason = "floating point numbers are not supported";
    fault_ends_so(&rt, text_on(alloc, [0.5f64]), reason, None);
    Ok(())
}

// The engine's template `t` is this one.
fn holds(rt: &impl Abort, engine: &Engine<'_>, wanted: &str) {
    match engine.get_template("t") {
        Some(template) => assert_eq!(rt; template.source(), wanted),
        None => panic!(rt; "no template"),
    }
}

#[test]
fn added_templates(rt: HostRuntime) -> std::result::Result<(), Fail> {
    let alloc = rt.alloc();
    let mut engine = Engine::new(alloc);
    if let Err(error) = engine.add_template(CowStr::Borrowed("t"), CowStr::Borrowed("a")) {
        assert!(&rt; is_out(&error));
        assert!(&rt; engine.get_template("t").is_none());
        return Ok(());
    }
    match engine.add_template(CowStr::Borrowed("t"), CowStr::Borrowed("{{")) {
        Ok(()) => panic!(&rt; "added"),
        Err(error) => assert!(&rt; is_out(&error) || error.template_name() == Some("t")),
    }
    holds(&rt, &engine, "a");
    match engine.add_template(CowStr::Borrowed("t"), CowStr::Borrowed("b{{ 1 }}")) {
        Ok(()) => holds(&rt, &engine, "b{{ 1 }}"),
        Err(error) => {
            assert!(&rt; is_out(&error));
            holds(&rt, &engine, "a");
        }
    }
    Ok(())
}

// Puts a function and a formatter under one name.
fn add_both(engine: &mut Engine<'_>, alloc: Global) -> std::result::Result<(), AllocError> {
    let double = Box::new(alloc, Fn1::new(Double))?;
    engine.add_function(CowStr::Borrowed("f"), double)?;
    let half = Box::new(alloc, Half)?;
    engine.add_formatter(CowStr::Borrowed("f"), half)?;
    Ok(())
}

#[test]
fn added_callables(rt: HostRuntime) -> std::result::Result<(), Fail> {
    let alloc = rt.alloc();
    let mut engine = Engine::new(alloc);
    let _ = add_both(&mut engine, alloc);
    let is_there = engine.remove_callable("f").is_some();
    assert!(&rt; engine.remove_callable("f").is_none(), "{is_there}");
    Ok(())
}

#[test]
fn built_syntaxes(rt: HostRuntime) -> std::result::Result<(), Fail> {
    let alloc = rt.alloc();
    let mut builder = Syntax::builder();
    builder
        .expr("{{", "}}")
        .block("{%", "%}")
        .comment("{#", "#}");
    let Ok(syntax) = builder.build(alloc) else {
        return Ok(());
    };
    assert!(&rt; syntax == Syntax::default());
    if let Ok(copy) = syntax.try_clone() {
        assert!(&rt; copy == syntax);
    }
    Ok(())
}

#[test]
fn copies_of_values(rt: HostRuntime) -> std::result::Result<(), Fail> {
    let alloc = rt.alloc();
    if let Ok(value) = value! { in alloc; a: [1, "b", {c: true}] } {
        if let Ok(copy) = value.try_clone() {
            assert!(&rt; copy == value);
        }
    }
    Ok(())
}

// Two templates that include each other, and one that is not there.
const RING: &[(&str, &str)] = &[
    (
        "page",
        "{{ a }}{% include \"part\" %}{% include \"gone\" %}",
    ),
    ("part", "{{ b }}{% include \"page\" %}"),
];

fn ring<'e>(alloc: Global) -> Result<Engine<'e>> {
    let mut engine = Engine::new(alloc);
    for (name, source) in RING {
        engine.add_template(CowStr::Borrowed(name), CowStr::Borrowed(source))?;
    }
    Ok(engine)
}

#[test]
fn needs(rt: HostRuntime) {
    let Ok(engine) = ring(rt.alloc()) else {
        return;
    };
    let Some(needs) = needs_of(&engine, "page") else {
        panic!(&rt; "there is such a template");
    };
    if let Ok(needs) = needs {
        assert!(&rt; needs.names() == ["a", "b"].as_slice());
        assert!(&rt; needs.templates() == ["page", "part"].as_slice());
        assert!(&rt; needs.missing() == ["gone"].as_slice());
    }
}

// Every kind of statement and of expression, in eleven statements.
const STATEMENTS: &str = "a{{ b }}{% include \"c\" with {\"k\": v} %}{% include \"d\" %}\
{% if not e %}f{% else if g %}h{% else %}i{% endif %}{% for j in [k, 1] %}l{% else %}m{% endfor %}\
{% for n, o in p %}{# q #}{% endfor %}{% with (r) as s %}t{% endwith %}{{ u | v: w }}{{ x() }}{{ y | z }}";

#[test]
fn trees(rt: HostRuntime) {
    let searcher = Searcher::new();
    match Parser::new(rt.alloc(), &searcher, STATEMENTS).parse_template() {
        Ok(tree) => assert_eq!(rt; tree.scope.stmts.len(), 11),
        Err(error) => assert!(rt; is_out(&error), "{error}"),
    }
}
