// Functions and formatters in templates.
use crate::callables::added::engine;
use std::borrow::CowStr;
use std::test::Fail;
use upon::functions::Fn1;
use upon::{Engine, EngineCallable, Value, value};
use upon_examples::callables::{Double, NoNone};
use upon_examples::answers::{all_answer, answer};

#[test]
fn functions(rt: HostRuntime) -> Result<(), Fail> {
    let alloc = rt.alloc();
    let rows = [
        ("{{ 21 | double }}", "42"),
        ("{{ add(1, 2) | double }}", "6"),
        ("{{ add(add(1, 2), 3) }}{{ 4 | add: 5 }}", "69"),
        ("{% if low(0) %}a{% else %}b{% endif %}", "b"),
        (
            "{{ \"x\" | double }}",
            "render error: function `double` expects i64 argument, found string at 3..6",
        ),
        (
            "{{ double() }}",
            "render error: function expects 1 arguments, 0 provided at 3..9",
        ),
        (
            "{% if double() %}{% endif %}",
            "render error: function expects 1 arguments, 0 provided at 6..14",
        ),
        (
            "{{ 300 | low }}",
            "render error: function `low` expects u8 argument, but `300` is out of range at 3..6",
        ),
        (
            "{{ -301 | low }}",
            "render error: function `low` expects u8 argument, but `-301` is out of range at 3..7",
        ),
        (
            "{% with {\"a\": 1} as m %}{{ m | double }}{% endwith %}",
            "render error: function `double` expects i64 argument, found map at 27..28",
        ),
        (
            "{{ 1 | add: \"x\" }}",
            "render error: function `add` expects i64 argument, found string at 12..15",
        ),
        ("{{ \"a\" | no }}", "function error: no at 9..11"),
        (
            "{% if \"a\" | no %}{% endif %}",
            "function error: no at 6..14",
        ),
        (
            "{{ 1 | pair }}",
            "format error: expression evaluated to unformattable type list at 3..11",
        ),
        ("{{ [zz(1)] }}", "render error: unknown function at 4..6"),
        (
            "{{ f(1) }}",
            "render error: unknown formatter or function at 3..4",
        ),
    ];
    all_answer(alloc, &engine(alloc)?, &Value::None, &rows)
}

#[test]
fn formatters(rt: HostRuntime) -> Result<(), Fail> {
    let alloc = rt.alloc();
    let rows = [
        (
            "{{ 1 | fmt: 2 }}",
            "render error: formatter expects 1 argument, 2 provided at 7..10",
        ),
        (
            "{{ 1 | fmt: 2, 3, 4 }}",
            "render error: formatter expects 1 argument, 4 provided at 7..10",
        ),
        ("{{ (1 | fmt) }}", "1"),
        (
            "{{ [(1 | fmt)] }}",
            "render error: expected function, found formatter at 9..12",
        ),
        ("x{{ 1 | half }}y", "format error: bad at 8..12"),
        ("{{ 1 | mute }}", "format error at 7..11"),
        (
            "{% if mute(1) %}{% endif %}",
            "render error: expected function, found formatter at 6..10",
        ),
    ];
    all_answer(alloc, &engine(alloc)?, &Value::None, &rows)
}

#[test]
fn a_default_formatter(rt: HostRuntime) -> Result<(), Fail> {
    let alloc = rt.alloc();
    let mut engine = Engine::new(alloc);
    engine.set_default_formatter(Box::new(alloc, NoNone)?);
    let rows = [
        ("{{ \"a\" }}{{ 1 }}", "a1"),
        (
            "{% with {} as m %}{{ m?.a }}{% endwith %}",
            "format error: unable to format None at 21..25",
        ),
        ("{{ ?.a }}", "format error: unable to format None at 3..6"),
    ];
    all_answer(alloc, &engine, &value! { in alloc; b: 1 }?, &rows)
}

#[test]
fn callables_come_and_go(rt: HostRuntime) -> Result<(), Fail> {
    let alloc = rt.alloc();
    let mut engine = engine(alloc)?;
    let again = engine.add_function(
        CowStr::Borrowed("double"),
        Box::new(alloc, Fn1::new(Double))?,
    )?;
    assert_eq!(&rt; again, Some(EngineCallable::Function));
    let other = engine.add_function(CowStr::Borrowed("fmt"), Box::new(alloc, Fn1::new(Double))?)?;
    assert_eq!(&rt; other, Some(EngineCallable::Formatter));
    assert_eq!(&rt;
        answer(alloc, &engine, "{{ 2 | fmt }}", &Value::None)?.as_str(),
        "4"
    );
    assert_eq!(&rt;
        engine.remove_callable("double"),
        Some(EngineCallable::Function)
    );
    assert_eq!(&rt; engine.remove_callable("double"), None);
    assert_eq!(&rt;
        engine.remove_callable("half"),
        Some(EngineCallable::Formatter)
    );
    Ok(())
}
