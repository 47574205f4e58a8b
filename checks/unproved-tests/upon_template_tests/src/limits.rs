// Renderings within limits: what is just enough, what is one too few, and where a rendering is stopped.
use crate::callables::added;
use std::alloc::{AllocError, Global};
use std::borrow::CowStr;
use std::process::Abort;
use std::test::Fail;
use upon::{Engine, Limits, Result, Value, value};
use upon_std::table::ALL;
use upon_examples::answers::line_of;

fn context(alloc: Global) -> Result<Value> {
    value! { in alloc; x: "12", xs: [0, 1, 2, 3, 4, 5, 6, 7, 8, 9] }
}

fn of_steps(count: usize) -> Limits {
    Limits {
        steps: Some(count),
        ..Limits::none()
    }
}

fn of_bytes(count: usize) -> Limits {
    Limits {
        output: Some(count),
        ..Limits::none()
    }
}

fn of_values(count: usize) -> Limits {
    Limits {
        values: Some(count),
        ..Limits::none()
    }
}

// The source within the limits answers what is wanted.
fn answers(alloc: Global, limits: &Limits, source: &str, wanted: &str) -> std::result::Result<(), Fail> {
    let engine = added::engine(alloc)?;
    let line = line_of(alloc, engine.render_text_within(limits, source, &context(alloc)?))?;
    if line.as_str() != wanted {
        return Err(Fail::new(format_args!("{line:?} in place of {wanted:?}, of {source}")));
    }
    Ok(())
}

// Loops over ten items, so many inside each other, around a text.
fn nested(alloc: Global, depth: usize) -> std::result::Result<String, AllocError> {
    let mut source = String::new(alloc);
    for _ in 0..depth {
        source.push_str("{% for y in xs %}")?;
    }
    source.push_str("a")?;
    for _ in 0..depth {
        source.push_str("{% endfor %}")?;
    }
    Ok(source)
}

#[test]
fn nested_loops_end_at_once(rt: HostRuntime) -> std::result::Result<(), Fail> {
    let alloc = rt.alloc();
    let source = nested(alloc, 20)?;
    let steps = "render error: reached the limit of 10000 steps at 340..341";
    answers(alloc, &of_steps(10_000), source.as_str(), steps)?;
    let bytes = "render error: reached the limit of 1000 bytes at 340..341";
    answers(alloc, &of_bytes(1000), source.as_str(), bytes)
}

#[test]
fn steps_that_are_just_enough(rt: HostRuntime) -> std::result::Result<(), Fail> {
    let alloc = rt.alloc();
    for (source, steps, text, stopped) in [
        ("", 1, "", "0..0"),
        ("a", 2, "a", "0..1"),
        ("{{ x }}", 3, "12", "3..4"),
        ("{% if x %}a{% endif %}", 4, "a", "10..11"),
        ("{% if not x %}a{% endif %}", 3, "", "14..15"),
        ("{% for y in [1, 2] %}{{ y }}{% endfor %}", 16, "12", "24..25"),
    ] {
        answers(alloc, &of_steps(steps), source, text)?;
        answers(alloc, &of_steps(steps + 1), source, text)?;
        let fewer = steps - 1;
        let wanted = format!(in alloc; "render error: reached the limit of {fewer} steps at {stopped}")?;
        answers(alloc, &of_steps(fewer), source, wanted.as_str())?;
    }
    Ok(())
}

#[test]
fn bytes_that_are_just_enough(rt: HostRuntime) -> std::result::Result<(), Fail> {
    let alloc = rt.alloc();
    for (source, bytes, text, stopped) in [
        ("a", 1, "a", "0..1"),
        ("ab{{ x }}", 4, "ab12", "5..6"),
        ("ab{{ x }}cd", 6, "ab12cd", "9..11"),
        ("\u{e9}", 2, "\u{e9}", "0..2"),
        ("{% for y in [1, 2] %}{{ y }}{% endfor %}", 2, "12", "24..25"),
    ] {
        answers(alloc, &of_bytes(bytes), source, text)?;
        answers(alloc, &of_bytes(bytes + 1), source, text)?;
        let fewer = bytes - 1;
        let wanted = format!(in alloc; "render error: reached the limit of {fewer} bytes at {stopped}")?;
        answers(alloc, &of_bytes(fewer), source, wanted.as_str())?;
    }
    answers(alloc, &of_bytes(0), "{# nothing #}", "")
}

#[test]
fn values_that_are_just_enough(rt: HostRuntime) -> std::result::Result<(), Fail> {
    let alloc = rt.alloc();
    for (source, bytes, text, stopped) in [
        ("{% with [1, 2] as a %}b{% endwith %}", 128, "b", "12..13"),
        ("{% with [x] as a %}b{% endwith %}", 66, "b", "9..10"),
        ("{% with [[]] as a %}b{% endwith %}", 32, "b", "9..11"),
        ("{% with {\"k\": x} as a %}b{% endwith %}", 67, "b", "9..12"),
        ("{% with {\"k\": {} } as a %}b{% endwith %}", 33, "b", "9..12"),
        ("{% with [x] as a %}{{ a.0 }}{% endwith %}", 100, "12", "22..25"),
        ("{% with double(21) as a %}b{% endwith %}", 32, "b", "8..18"),
        ("{{ double(double(21)) }}", 32, "84", "10..20"),
        ("{% with x as a %}{{ a }}{% endwith %}", 0, "12", ""),
        ("{% for y in xs %}{{ y }}{% endfor %}", 0, "0123456789", ""),
        ("{% for y in xs %}{{ loop.index }}{% endfor %}", 320, "0123456789", "20..30"),
        // What the context has is lent under other names too, until a copy is put in; so are its parts.
        ("{% with xs as a %}{% with [a.0] as b %}c{% endwith %}{% endwith %}", 64, "c", "27..30"),
        ("{% for y in xs %}{% with y as z %}{{ z }}{% endwith %}{% endfor %}", 0, "0123456789", ""),
        ("{% for y in [xs.0] %}{{ y }}{% endfor %}", 96, "0", "24..25"),
        ("{% for k, v in {\"k\": x} %}{{ v }}{{ k }}{% endfor %}", 134, "12k", "36..37"),
        ("{% with [1] as x %}{% endwith %}{{ x }}", 64, "12", "9..10"),
        ("{% with [1] as x %}{{ x.0 }}{% with 2 as x %}{{ x }}{% endwith %}{% endwith %}", 96, "12", "22..25"),
        ("{% with xs as loop %}{% for y in [2] %}{{ loop.first }}{% endfor %}{{ loop.0 }}{% endwith %}", 96, "true0", "42..52"),
    ] {
        answers(alloc, &of_values(bytes), source, text)?;
        answers(alloc, &of_values(bytes + 1), source, text)?;
        if bytes > 0 {
            let fewer = bytes - 1;
            let wanted = format!(in alloc; "render error: reached the limit of {fewer} bytes of values at {stopped}")?;
            answers(alloc, &of_values(fewer), source, wanted.as_str())?;
        }
    }
    Ok(())
}

// Each include has a value that is twice as large as the one around it.
#[test]
fn values_that_double_end_at_once(rt: HostRuntime) -> std::result::Result<(), Fail> {
    let alloc = rt.alloc();
    let mut engine = Engine::new(alloc);
    engine.add_template(CowStr::Borrowed("it"), CowStr::Borrowed("{% include \"it\" with {\"a\": [a, a]} %}"))?;
    let one = value! { in alloc; a: 1 }?;
    for (bytes, wanted) in [
        (100_000, "render error: reached the limit of 100000 bytes of values at 31..32 in it"),
        (98_473, "render error: reached the limit of 98473 bytes of values at 31..32 in it"),
        (98_472, "render error: reached the limit of 98472 bytes of values at 28..29 in it"),
        (98_440, "render error: reached the limit of 98440 bytes of values at 28..29 in it"),
    ] {
        let Some(rendered) = engine.render_template_within(&of_values(bytes), "it", &one) else {
            return Err(Fail::from("no template"));
        };
        assert_eq!(&rt; line_of(alloc, rendered)?.as_str(), wanted);
    }
    Ok(())
}

// What a list weighs goes up with its items, however many they are, whether it is copied or comes from a function: it is 32
// bytes at least for each.
#[test]
fn lists_of_many_items_weigh_more(rt: HostRuntime) -> std::result::Result<(), Fail> {
    let alloc = rt.alloc();
    let engine = added::engine(alloc)?;
    for count in [1_u32, 17, 101, 1_001, 10_001] {
        let mut items = Vec::new(alloc);
        for i in 0..count {
            items.push(Value::from(i))?;
        }
        let context = value! { in alloc; xs: items }?;
        let bytes = 32 * count as usize;
        let source = "{% with [xs] as a %}b{% endwith %}";
        let line = line_of(alloc, engine.render_text_within(&of_values(bytes), source, &context))?;
        let wanted = format!(in alloc; "render error: reached the limit of {bytes} bytes of values at ")?;
        assert!(&rt; line.as_str().starts_with(wanted.as_str()), "{line:?} of {count}");
        let line = line_of(alloc, engine.render_text_within(&of_values(100 + 2 * bytes), source, &context))?;
        assert_eq!(&rt; line.as_str(), "b", "of {count}");
    }
    Ok(())
}

// A text that a function gives weighs 32 bytes and its own, however long it is.
#[test]
fn texts_of_functions_weigh_their_bytes(rt: HostRuntime) -> std::result::Result<(), Fail> {
    let alloc = rt.alloc();
    let mut engine = Engine::new(alloc);
    for function in ALL.as_slice() {
        engine.add_function(function.name().into(), Box::new(alloc, *function)?)?;
    }
    for count in [1_usize, 17, 101, 1_001, 10_001, 100_001] {
        let source = format!(in alloc; "{{% with repeat(\"a\", {count}) as t %}}b{{% endwith %}}")?;
        let enough = of_values(32 + count);
        let line = line_of(alloc, engine.render_text_within(&enough, source.as_str(), &Value::None))?;
        assert_eq!(&rt; line.as_str(), "b", "of {count}");
        let fewer = of_values(31 + count);
        let line = line_of(alloc, engine.render_text_within(&fewer, source.as_str(), &Value::None))?;
        assert!(&rt; line.as_str().starts_with("render error: reached the limit of "), "{line:?} of {count}");
    }
    Ok(())
}

// A limit that is reached behind so many includes has the name of the template that ran, and the place in it.
#[test]
fn a_limit_behind_includes(rt: HostRuntime) -> std::result::Result<(), Fail> {
    let alloc = rt.alloc();
    for depth in [1_u32, 2, 3, 17, 60] {
        let mut engine = Engine::new(alloc);
        for i in 0..depth {
            let source = format!(in alloc; "{{% include \"{next}\" %}}", next = i + 1)?;
            engine.add_template(format!(in alloc; "{i}")?.into(), source.into())?;
        }
        let last = "{% for x in xs %}{{ x }}{% endfor %}";
        engine.add_template(format!(in alloc; "{depth}")?.into(), last.into())?;
        let Some(rendered) = engine.render_template_within(&of_bytes(3), "0", &context(alloc)?) else {
            return Err(Fail::from("no template"));
        };
        let wanted = format!(in alloc; "render error: reached the limit of 3 bytes at 20..21 in {depth}")?;
        assert_eq!(&rt; line_of(alloc, rendered)?.as_str(), wanted.as_str());
    }
    Ok(())
}

#[test]
fn faults_before_a_limit(rt: HostRuntime) -> std::result::Result<(), Fail> {
    let alloc = rt.alloc();
    let fault = "render error: not found in this scope at 4..5";
    answers(alloc, &Limits::none(), "a{{ y }}b", fault)?;
    answers(alloc, &of_steps(2), "a{{ y }}b", fault)?;
    answers(alloc, &of_bytes(1), "a{{ y }}b", fault)?;
    let stopped = "render error: reached the limit of 1 steps at 4..5";
    answers(alloc, &of_steps(1), "a{{ y }}b", stopped)?;
    let unclosed = line_of(alloc, Engine::new(alloc).render_text("{{", &Value::None))?;
    answers(alloc, &of_steps(0), "{{", unclosed.as_str())
}

#[test]
fn the_limit_that_comes_first(rt: HostRuntime) -> std::result::Result<(), Fail> {
    let alloc = rt.alloc();
    let both = Limits {
        steps: Some(3),
        output: Some(1),
        values: None,
    };
    answers(alloc, &both, "ab", "render error: reached the limit of 1 bytes at 0..2")?;
    let nested = "a{% if 1 %}{% if 1 %}b{% endif %}{% endif %}";
    answers(alloc, &both, nested, "render error: reached the limit of 3 steps at 17..18")
}

#[test]
fn writers_have_a_beginning(rt: HostRuntime) -> std::result::Result<(), Fail> {
    let alloc = rt.alloc();
    let engine = Engine::new(alloc);
    let context = context(alloc)?;
    for (limits, wanted) in [
        (of_bytes(6), "ab12cd"),
        (of_bytes(5), "ab12"),
        (of_bytes(4), "ab12"),
        (of_bytes(3), "ab"),
        (of_bytes(1), ""),
        (of_steps(4), "ab12cd"),
        (of_steps(3), "ab12"),
        (of_steps(2), "ab"),
        (of_steps(0), ""),
        (of_values(0), "ab12cd"),
    ] {
        let mut out = Vec::new(alloc);
        drop(engine.render_text_to_within(&limits, "ab{{ x }}cd", &context, &mut out));
        assert!(&rt; out.as_slice() == wanted.as_bytes(), "{wanted}");
    }
    Ok(())
}

#[test]
fn templates_by_their_names(rt: HostRuntime) -> std::result::Result<(), Fail> {
    let alloc = rt.alloc();
    let mut engine = Engine::new(alloc);
    engine.add_template(CowStr::Borrowed("t"), CowStr::Borrowed("abc"))?;
    engine.add_template(CowStr::Borrowed("u"), CowStr::Borrowed("{% include \"t\" %}"))?;
    for (limits, wanted) in [
        (of_bytes(3), "abc"),
        (of_bytes(2), "render error: reached the limit of 2 bytes at 0..3 in t"),
        (of_steps(4), "abc"),
        (of_steps(3), "render error: reached the limit of 3 steps at 11..14 in u"),
        (of_steps(2), "render error: reached the limit of 2 steps at 0..3 in t"),
    ] {
        let Some(rendered) = engine.render_template_within(&limits, "u", &Value::None) else {
            return Err(Fail::from("no template"));
        };
        assert_eq!(&rt; line_of(alloc, rendered)?.as_str(), wanted);
    }
    let mut out = Vec::new(alloc);
    let absent = engine.render_template_to_within(&Limits::none(), "v", &Value::None, &mut out);
    assert!(&rt; absent.is_none() && engine.render_template_within(&Limits::none(), "v", &Value::None).is_none());
    Ok(())
}

#[test]
fn the_picture_shows_the_place(rt: HostRuntime) -> std::result::Result<(), Fail> {
    let alloc = rt.alloc();
    match Engine::new(alloc).render_text_within(&of_steps(1), "a\n{{ 1 }}", &Value::None) {
        Ok(_) => Err(Fail::from("no fault")),
        Err(error) => {
            let wanted = "render error\n\n  --> <anonymous>:2:4\n   |\n 2 | {{ 1 }}\n   |    ^--\n   |\n   = reason: reached the limit of 1 steps\n";
            assert_eq!(&rt; error.pretty(alloc)?.as_str(), wanted);
            Ok(())
        }
    }
}
