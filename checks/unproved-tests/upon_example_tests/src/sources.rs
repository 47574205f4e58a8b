// Tests of contexts and templates from functions.
use std::borrow::CowStr;
use std::collections::BTreeMap;
use std::test::Fail;
use upon::Engine;
use upon::render::ValueFn;
use upon_examples::sources::{Counter, NoUser, by_map, with_counted};
use upon_examples::answers::line_of;
use upon_users::users::on_source;

#[test]
fn templates_that_are_counted(rt: HostRuntime) -> Result<(), Fail> {
    let alloc = rt.alloc();
    let engine = Engine::new(alloc);
    let page = "{% include \"a\" %}, {% include \"b\" %}";
    let template = engine.compile(CowStr::Borrowed(page))?;
    let included = engine.compile(CowStr::Borrowed("x"))?;
    let mut out = String::new(alloc);
    let asked = with_counted(&engine, &template, &included, &mut out)?;
    assert_eq!(&rt; out.as_str(), "x, x");
    assert_eq!(&rt; asked, 2);
    Ok(())
}

#[test]
fn templates_of_a_map(rt: HostRuntime) -> Result<(), Fail> {
    let alloc = rt.alloc();
    let engine = Engine::new(alloc);
    let mut templates = BTreeMap::new(alloc);
    for (name, source) in [("a", "x"), ("b", "{% include \"a\" %}y")] {
        let template = engine.compile(CowStr::Borrowed(source))?;
        let _ = templates.insert(String::from_str(alloc, name)?, template)?;
    }
    for (source, wanted) in [
        ("{% include \"b\" %}{% include \"a\" %}", "xyx"),
        (
            "{% include \"c\" %}",
            "render error: unknown template at 11..14",
        ),
    ] {
        let text = by_map(alloc, &engine, &templates, source);
        assert_eq!(&rt; line_of(alloc, text)?.as_str(), wanted);
    }
    Ok(())
}

#[test]
fn a_function_in_turn(rt: HostRuntime) -> Result<(), Fail> {
    let alloc = rt.alloc();
    let mut engine = Engine::new(alloc);
    engine.add_template(CowStr::Borrowed("t"), CowStr::Borrowed("{{ a }}"))?;
    for (source, wanted, times) in [
        (
            "{{ a }}{% for a in [9] %}{{ a }}{% endfor %}{{ a }}",
            "192",
            2,
        ),
        ("{% include \"t\" %}{{ b.c }}", "12", 2),
        (
            "{% include \"t\" with 5 %}",
            "render error: not found in this scope at 3..4 in t",
            0,
        ),
    ] {
        let template = engine.compile(CowStr::Borrowed(source))?;
        let mut counter = ValueFn::new(Counter { asked: 0 });
        let text = template.render_from_fn(&engine, &mut counter).to_string();
        assert_eq!(&rt; line_of(alloc, text)?.as_str(), wanted);
        assert_eq!(&rt; counter.callable.asked, times);
    }
    Ok(())
}

#[test]
fn sources_that_come_back(rt: HostRuntime) -> Result<(), Fail> {
    let alloc = rt.alloc();
    let engine = Engine::new(alloc);
    let template = engine.compile(CowStr::Borrowed("{{ a }}{{ b }}"))?;
    let mut out = String::new(alloc);
    let counter = ValueFn::new(Counter { asked: 0 });
    let (result, values, templates) = template
        .render_from_fn(&engine, counter)
        .to_output_and_sources(&mut out);
    result?;
    let (result, values, _) = template
        .render_from_fn(&engine, values.into_source())
        .with_template_fn(templates)
        .to_output_and_sources(&mut out);
    result?;
    assert_eq!(&rt; out.as_str(), "1234");
    assert_eq!(&rt; values.into_source().callable.asked, 4);
    Ok(())
}

#[test]
fn sources_that_are_lent(rt: HostRuntime) -> Result<(), Fail> {
    let alloc = rt.alloc();
    let engine = Engine::new(alloc);
    let template = engine.compile(CowStr::Borrowed("{{ a }}{{ b }}"))?;
    let mut counter = ValueFn::new(Counter { asked: 0 });
    let mut out = String::new(alloc);
    on_source(&engine, &template, &mut counter, &mut out)?;
    on_source(&engine, &template, &mut counter, &mut out)?;
    assert_eq!(&rt; out.as_str(), "1234");
    assert_eq!(&rt; counter.callable.asked, 4);
    Ok(())
}

#[test]
fn a_function_that_refuses(rt: HostRuntime) -> Result<(), Fail> {
    let alloc = rt.alloc();
    let engine = Engine::new(alloc);
    let template = engine.compile(CowStr::Borrowed("{{ user?.name }}"))?;
    let text = template
        .render_from_fn(&engine, ValueFn::new(NoUser { alloc }))
        .to_string();
    assert_eq!(&rt;
        line_of(alloc, text)?.as_str(),
        "render error: no user at 3..13"
    );
    Ok(())
}
