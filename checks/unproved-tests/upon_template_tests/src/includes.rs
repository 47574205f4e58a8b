// Templates by name: includes, their scopes, their depth, and the names in faults.
use std::alloc::{AllocError, Global};
use std::borrow::CowStr;
use std::process::Abort;
use std::test::Fail;
use upon::{Engine, Result, Value, value};
use upon_examples::answers::{all_answer, describe, line_of};

// An engine with templates of these names.
fn engine<'e>(alloc: Global, templates: &[(&str, &'e str)]) -> Result<Engine<'e>> {
    let mut engine = Engine::new(alloc);
    for (name, source) in templates {
        engine.add_template(CowStr::Borrowed(name), CowStr::Borrowed(source))?;
    }
    Ok(engine)
}

#[test]
fn texts(rt: HostRuntime) -> std::result::Result<(), Fail> {
    let alloc = rt.alloc();
    let templates = [
        ("hello", "Hello {{ user.name }}!"),
        ("goodbye", "Goodbye {{ user.name }}!"),
        ("n", "{{ n }}"),
        ("a", "{{ a }}"),
        ("item", "{{ x }}{% if loop.last %}.{% endif %}"),
        ("of", "{{ u.name }}/{{ u?.age }}"),
        ("again", "{% include \"of\" with {\"u\": u} %}"),
        (
            "page",
            "[{% include \"n\" %}{% include \"a\" with {\"a\": n} %}]",
        ),
    ];
    let engine = engine(alloc, &templates)?;
    let context = value! { in alloc; user: {name: "John Smith"}, a: 1, n: 2, xs: [1, 2] }?;
    let rows = [
        (
            "{% include \"hello\" %}\n{% include \"goodbye\" %}",
            "Hello John Smith!\nGoodbye John Smith!",
        ),
        ("{% with 1 as n %}{% include \"n\" %}{% endwith %}", "1"),
        ("{% for x in xs %}{% include \"item\" %}{% endfor %}", "12."),
        ("{% include \"page\" %}", "[22]"),
        ("{% include \"of\" with {\"u\": user} %}", "John Smith/"),
        ("{% include \"again\" with {\"u\": user} %}{{ n }}", "John Smith/2"),
        ("{% for x in [user] %}{% include \"of\" with {\"u\": x} %}{% endfor %}", "John Smith/"),
        ("{% include \"of\" with {\"v\": a, \"u\": user} %}", "John Smith/"),
        ("{% include \"of\" with {\"u\": a, \"u\": user} %}", "John Smith/"),
        (
            "{% include \"a\" with {\"b\": user} %}",
            "render error: not found in this scope at 3..4 in a",
        ),
        (
            "{% include \"zz\" with {\"b\": user} %}",
            "render error: unknown template at 11..15",
        ),
        (
            "{% include \"a\" with 5 %}",
            "render error: not found in this scope at 3..4 in a",
        ),
        (
            "{% include \"zz\" %}",
            "render error: unknown template at 11..15",
        ),
        (
            "{% include \"zz\" with y %}",
            "render error: not found in this scope at 21..22",
        ),
    ];
    all_answer(alloc, &engine, &context, &rows)
}

// What the template of a name answers on no value.
fn named(
    alloc: Global,
    engine: &Engine<'_>,
    name: &str,
) -> std::result::Result<String, AllocError> {
    match engine.get_template(name) {
        Some(template) => line_of(alloc, template.render_from(&Value::None).to_string()),
        None => String::from_str(alloc, "no template"),
    }
}

// What the template of a name answers to a writer on no value, which has received this text before the fault.
fn writes(
    rt: &impl Abort,
    alloc: Global,
    engine: &Engine<'_>,
    name: &str,
    received: &str,
) -> std::result::Result<String, Fail> {
    let Some(template) = engine.get_template(name) else {
        return Err(Fail::new("no template"));
    };
    let mut out = Vec::new(alloc);
    let end = template.render_from(&Value::None).to_writer(&mut out);
    assert_eq!(rt; out.as_slice(), received.as_bytes());
    match end {
        Ok(()) => Err(Fail::new("no fault")),
        Err(error) => Ok(describe(alloc, &error)?),
    }
}

// Where includes may be this deep, `s` writes this text, and then ends with this fault.
fn at_depth(
    rt: &impl Abort,
    alloc: Global,
    engine: &mut Engine<'_>,
    depth: usize,
    received: &str,
    wanted: &str,
) -> std::result::Result<(), Fail> {
    engine.set_max_include_depth(depth);
    assert_eq!(rt; named(alloc, engine, "s")?.as_str(), wanted);
    assert_eq!(rt; writes(rt, alloc, engine, "s", received)?.as_str(), wanted);
    Ok(())
}

#[test]
fn depths(rt: HostRuntime) -> std::result::Result<(), Fail> {
    let alloc = rt.alloc();
    for source in ["x{% include \"s\" %}", "x{% include \"s\" with 5 %}"] {
        let mut engine = engine(alloc, &[("s", source)])?;
        for (depth, received, wanted) in [
            (0, "x", "render error: reached maximum include depth (0)"),
            (1, "x", "render error: reached maximum include depth (1)"),
            (3, "xxx", "render error: reached maximum include depth (3)"),
            (
                64,
                "xxxxxxxxxxxxxxxxxxxxxxxxxxxxxxxxxxxxxxxxxxxxxxxxxxxxxxxxxxxxxxxx",
                "render error: reached maximum include depth (64)",
            ),
        ] {
            at_depth(&rt, alloc, &mut engine, depth, received, wanted)?;
        }
    }
    Ok(())
}

#[test]
fn a_depth_of_one_rendering(rt: HostRuntime) -> std::result::Result<(), Fail> {
    let alloc = rt.alloc();
    let engine = engine(alloc, &[("s", "x{% include \"s\" %}")])?;
    let template = engine.compile(CowStr::Borrowed("{% include \"s\" %}"))?;
    let text = template
        .render_from(&engine, &Value::None)
        .with_max_include_depth(2)
        .to_string();
    let wanted = "render error: reached maximum include depth (2)";
    assert_eq!(&rt; line_of(alloc, text)?.as_str(), wanted);
    Ok(())
}

#[test]
fn depth_comes_after_the_name(rt: HostRuntime) -> std::result::Result<(), Fail> {
    let alloc = rt.alloc();
    let mut engine = engine(alloc, &[("r", "{% include \"zz\" %}")])?;
    engine.set_max_include_depth(1);
    let wanted = "render error: unknown template at 11..15 in r";
    assert_eq!(&rt; named(alloc, &engine, "r")?.as_str(), wanted);
    Ok(())
}

// A template is rendered with the templates of the engine that is given.
#[test]
fn templates_of_another_engine(rt: HostRuntime) -> std::result::Result<(), Fail> {
    let alloc = rt.alloc();
    let one = engine(alloc, &[("t", "one")])?;
    let other = engine(alloc, &[("t", "other")])?;
    let template = one.compile(CowStr::Borrowed("{% include \"t\" %}"))?;
    let text = template.render_from(&one, &Value::None).to_string()?;
    assert_eq!(&rt; text.as_str(), "one");
    let text = template.render_from(&other, &Value::None).to_string()?;
    assert_eq!(&rt; text.as_str(), "other");
    Ok(())
}

// A `with` of the include comes before the name, and the name before the depth.
#[test]
fn depth_comes_last(rt: HostRuntime) -> std::result::Result<(), Fail> {
    let alloc = rt.alloc();
    let mut engine = Engine::new(alloc);
    engine.set_max_include_depth(1);
    let rows = [
        (
            "{% include \"zz\" %}",
            "render error: unknown template at 11..15",
        ),
        (
            "{% include \"zz\" with y %}",
            "render error: not found in this scope at 21..22",
        ),
    ];
    all_answer(alloc, &engine, &Value::None, &rows)
}

// A template that is included sees its own scope, and its depth is given back.
#[test]
fn isolation(rt: HostRuntime) -> std::result::Result<(), Fail> {
    let alloc = rt.alloc();
    let templates = [
        ("t", "a"),
        ("u", "{% include \"zz\" %}"),
        ("l", "{{ loop.index }}"),
    ];
    let mut engine = engine(alloc, &templates)?;
    engine.set_max_include_depth(2);
    let rows = [
        ("{% include \"t\" %}{% include \"t\" %}", "aa"),
        (
            "{% include \"u\" %}",
            "render error: unknown template at 11..15 in u",
        ),
        (
            "{% for x in [1] %}{% include \"l\" with 5 %}{% endfor %}",
            "render error: not found in this scope at 3..7 in l",
        ),
    ];
    all_answer(alloc, &engine, &Value::None, &rows)
}

#[test]
fn templates_that_include_others(rt: HostRuntime) -> std::result::Result<(), Fail> {
    let alloc = rt.alloc();
    let templates = [("a", "a{% include \"b\" %}"), ("b", "b{% include \"a\" %}")];
    let mut engine = engine(alloc, &templates)?;
    engine.set_max_include_depth(3);
    let wanted = "render error: reached maximum include depth (3)";
    assert_eq!(&rt; writes(&rt, alloc, &engine, "a", "aba")?.as_str(), wanted);
    for (name, source) in [("b", "b{% include \"c\" %}"), ("c", "c"), ("z", "z")] {
        engine.add_template(CowStr::Borrowed(name), CowStr::Borrowed(source))?;
        if name != "b" {
            assert_eq!(&rt; named(alloc, &engine, "a")?.as_str(), "abc");
        }
    }
    Ok(())
}

#[test]
fn a_refused_template_leaves_the_old_one(rt: HostRuntime) -> std::result::Result<(), Fail> {
    let alloc = rt.alloc();
    let mut engine = engine(alloc, &[("t", "a")])?;
    let Err(error) = engine.add_template(CowStr::Borrowed("t"), CowStr::Borrowed("{{")) else {
        return Err(Fail::new("no fault"));
    };
    let wanted = "invalid syntax: expected token, found EOF at 2..2 in t";
    assert_eq!(&rt; describe(alloc, &error)?.as_str(), wanted);
    assert_eq!(&rt; named(alloc, &engine, "t")?.as_str(), "a");
    Ok(())
}

#[test]
fn templates_come_and_go(rt: HostRuntime) -> std::result::Result<(), Fail> {
    let alloc = rt.alloc();
    let mut engine = engine(alloc, &[("t", "a"), ("u", "b")])?;
    assert_eq!(&rt; named(alloc, &engine, "t")?.as_str(), "a");
    engine.add_template(CowStr::Borrowed("t"), CowStr::Borrowed("c"))?;
    assert_eq!(&rt; engine.template("t").source(), "c");
    // Its one instruction shows the raw part.
    assert_eq!(&rt; engine.template("t").instrs().len(), 1);
    assert!(&rt; engine.remove_template("t"));
    assert!(&rt; !engine.remove_template("t"));
    assert!(&rt; engine.get_template("t").is_none());
    assert_eq!(&rt; named(alloc, &engine, "u")?.as_str(), "b");
    Ok(())
}

// What a template answers on no value, if its name is made for the search and gone before the rendering.
fn numbered(alloc: Global, engine: &Engine<'_>, number: u32) -> std::result::Result<String, Fail> {
    let name = format!(in alloc; "page{number}")?;
    let found = engine.get_template(&name);
    drop(name);
    let Some(template) = found else {
        return Err(Fail::new("no template"));
    };
    Ok(line_of(alloc, template.render_from(&Value::None).to_string())?)
}

#[test]
fn a_name_may_be_made_for_the_search(rt: HostRuntime) -> std::result::Result<(), Fail> {
    let alloc = rt.alloc();
    let engine = engine(alloc, &[("page1", "a"), ("page2", "{{ x }}")])?;
    assert_eq!(&rt; numbered(alloc, &engine, 1)?.as_str(), "a");
    let wanted = "render error: not found in this scope at 3..4 in page2";
    assert_eq!(&rt; numbered(alloc, &engine, 2)?.as_str(), wanted);
    Ok(())
}
