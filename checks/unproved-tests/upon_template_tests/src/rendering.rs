// Texts and names, on a value of each kind.
use std::alloc::Global;
use std::borrow::CowStr;
use std::test::Fail;
use upon::{Engine, Result, Value, value};
use upon_examples::answers::all_answer;

// A value of each kind under a name.
fn context(alloc: Global) -> Result<Value> {
    value! { in alloc; name: "John", a: 7, minus: -5, none: None, yes: true, no: false, list: [], map: {} }
}

#[test]
fn texts(rt: HostRuntime) -> std::result::Result<(), Fail> {
    let alloc = rt.alloc();
    let rows = [
        ("Hello {{ name }}!", "Hello John!"),
        ("no tag at all } { %", "no tag at all } { %"),
        ("{{ a }}{{a}}", "77"),
        ("{{ none }}", ""),
        ("{{ yes }}{{ no }}", "truefalse"),
        ("{{ minus }}", "-5"),
        ("<{{\t\r\nname\n}}>", "<John>"),
        ("x{{ b }}", "render error: not found in this scope at 4..5"),
        (
            "{{ list }}",
            "format error: expression evaluated to unformattable type list at 3..7",
        ),
        (
            "{{ a }}{{map}}",
            "format error: expression evaluated to unformattable type map at 9..12",
        ),
    ];
    all_answer(alloc, &Engine::new(alloc), &context(alloc)?, &rows)
}

#[test]
fn names_beyond_ascii(rt: HostRuntime) -> std::result::Result<(), Fail> {
    let alloc = rt.alloc();
    let name = String::from_str(alloc, "gr\u{f6}\u{df}e_2")?;
    let context = Value::from_pairs(alloc, [(name, Value::from_text(alloc, "gro\u{df}")?)])?;
    let rows = [("{{ gr\u{f6}\u{df}e_2 }}", "gro\u{df}")];
    all_answer(alloc, &Engine::new(alloc), &context, &rows)
}

#[test]
fn a_context_that_is_no_map(rt: HostRuntime) -> std::result::Result<(), Fail> {
    let alloc = rt.alloc();
    let rows = [("{{ a }}", "render error: not found in this scope at 3..4")];
    all_answer(alloc, &Engine::new(alloc), &Value::from(1), &rows)
}

#[test]
fn source_is_kept(rt: HostRuntime) -> std::result::Result<(), Fail> {
    let alloc = rt.alloc();
    let engine = Engine::default(alloc);
    let template = engine.compile(CowStr::Borrowed("{{ a }} b"))?;
    assert_eq!(&rt; template.source(), "{{ a }} b");
    Ok(())
}
