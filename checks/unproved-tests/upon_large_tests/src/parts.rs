// Many or large parts of one kind: names, paths, filters, arguments, branches, literals, contexts and copies.
use std::alloc::{AllocError, Global};
use std::borrow::CowStr;
use std::collections::BTreeMap;
use std::test::Fail;
use upon::{Engine, Value};
use upon_serde::to_value;
use upon_examples::answers::{all_answer, line_of};

// A text many times over.
fn many(alloc: Global, part: &str, times: usize) -> Result<String, AllocError> {
    let mut text = String::new(alloc);
    for _ in 0..times {
        text.push_str(part)?;
    }
    Ok(text)
}

// A map with one value under a name.
fn one(alloc: Global, name: &str, value: Value) -> Result<Value, AllocError> {
    Value::from_pairs(alloc, [(String::from_str(alloc, name)?, value)])
}

#[test]
fn long_names(rt: HostRuntime) -> Result<(), Fail> {
    let alloc = rt.alloc();
    let mut times = 1usize;
    for _ in 0..16 {
        times = times.wrapping_mul(2);
        let name = many(alloc, "n", times)?;
        let context = one(alloc, name.as_str(), Value::from(7))?;
        let source = format!(in alloc;
            "{{{{ {name} }}}}{{% with {name} as m %}}{{{{ m }}}}{{% endwith %}}"
        )?;
        all_answer(
            alloc,
            &Engine::new(alloc),
            &context,
            &[(source.as_str(), "77")],
        )?;
    }
    Ok(())
}

// Each of these rows, with a long name in the place of `n`, is the text.
fn with_long_names(alloc: Global, before: &str, between: &str, after: &str) -> Result<(), Fail> {
    let mut times = 1usize;
    for _ in 0..13 {
        times = times.wrapping_mul(2);
        let name = many(alloc, "n", times)?;
        let source = format!(in alloc; "{before}{name}{between}{name}{after}")?;
        all_answer(
            alloc,
            &Engine::new(alloc),
            &Value::None,
            &[(source.as_str(), "7")],
        )?;
    }
    Ok(())
}

#[test]
fn long_bindings(rt: HostRuntime) -> Result<(), Fail> {
    with_long_names(rt.alloc(), "{% with 7 as ", " %}{{ ", " }}{% endwith %}")?;
    with_long_names(rt.alloc(), "{% for ", " in [7] %}{{ ", " }}{% endfor %}")
}

#[test]
fn long_keys(rt: HostRuntime) -> Result<(), Fail> {
    let before = "{% with {\"";
    with_long_names(rt.alloc(), before, "\": 7} as m %}{{ m.", " }}{% endwith %}")
}

#[test]
fn long_paths(rt: HostRuntime) -> Result<(), Fail> {
    let alloc = rt.alloc();
    let mut context = Value::from(7);
    let mut path = String::from_str(alloc, "a")?;
    for _ in 0..300 {
        context = one(alloc, "a", context)?;
    }
    path.push_str(many(alloc, ".a", 299)?.as_str())?;
    let source = format!(in alloc;
        "{{{{ {path} }}}}{{% for x in [{path}] %}}{{{{ x }}}}{{% endfor %}}"
    )?;
    all_answer(
        alloc,
        &Engine::new(alloc),
        &context,
        &[(source.as_str(), "77")],
    )
}

#[test]
fn many_filters_and_arguments(rt: HostRuntime) -> Result<(), Fail> {
    let alloc = rt.alloc();
    let engine = crate::callables::handing_on(alloc)?;
    let filters = many(alloc, " | same", 300)?;
    let filtered = format!(in alloc; "{{{{ \"x\"{filters} }}}}")?;
    let arguments = many(alloc, "1, ", 1000)?;
    let called = format!(in alloc; "{{{{ double({arguments}1) }}}}")?;
    let wanted = "render error: function expects 1 arguments, 1001 provided at 3..9";
    let rows = [(filtered.as_str(), "x"), (called.as_str(), wanted)];
    all_answer(alloc, &engine, &Value::None, &rows)
}

#[test]
fn many_branches(rt: HostRuntime) -> Result<(), Fail> {
    let alloc = rt.alloc();
    let branches = many(alloc, "{% else if 0 %}a", 300)?;
    let source = format!(in alloc; "{{% if 0 %}}a{branches}{{% else %}}b{{% endif %}}")?;
    let loops = many(alloc, "{% for x in [1] %}", 100)?;
    let ends = many(alloc, "{% endfor %}", 100)?;
    let looped = format!(in alloc; "{loops}{{{{ x }}}}{ends}")?;
    let rows = [(source.as_str(), "b"), (looped.as_str(), "1")];
    all_answer(alloc, &Engine::new(alloc), &Value::None, &rows)
}

#[test]
fn large_maps(rt: HostRuntime) -> Result<(), Fail> {
    let alloc = rt.alloc();
    let mut entries = String::new(alloc);
    for i in 0..2_000u32 {
        entries.push_str(format!(in alloc; "\"k{i}\": {i}, ")?.as_str())?;
    }
    let source = format!(in alloc;
        "{{% with {{{entries}}} as m %}}{{{{ m.k0 }}}} {{{{ m.k1999 }}}}{{% for k, v in m %}}.{{% endfor %}}{{% endwith %}}"
    )?;
    let mut wanted = String::from_str(alloc, "0 1999")?;
    wanted.push_str(many(alloc, ".", 2_000)?.as_str())?;
    let rows = [(source.as_str(), wanted.as_str())];
    all_answer(alloc, &Engine::new(alloc), &Value::None, &rows)
}

// What a literal holds is copied where it is lent.
#[test]
fn large_copies(rt: HostRuntime) -> Result<(), Fail> {
    let alloc = rt.alloc();
    let engine = Engine::new(alloc);
    let source =
        "{% with [x] as y %}{{ y.0 }}{% endwith %}{% with {\"a\": x} as y %}{{ y.a }}{% endwith %}";
    let template = engine.compile(CowStr::Borrowed(source))?;
    let mut times = 1usize;
    for _ in 0..18 {
        times = times.wrapping_mul(2);
        let x = Value::from_text(alloc, many(alloc, "x", times)?.as_str())?;
        let context = one(alloc, "x", x)?;
        let copy = context.try_clone()?;
        let text = template.render_from(&engine, &copy).to_string()?;
        assert_eq!(&rt; text.len(), times.wrapping_mul(2));
    }
    Ok(())
}

// The items of a list go through serde, into a context, a copy of it, and a literal.
#[test]
fn large_lists(rt: HostRuntime) -> Result<(), Fail> {
    let alloc = rt.alloc();
    let engine = Engine::new(alloc);
    let source =
        "{% for x in xs %}.{% endfor %}{% for xs in [xs] %}{% for x in xs %}.{% endfor %}{% endfor %}";
    let template = engine.compile(CowStr::Borrowed(source))?;
    let mut times = 1usize;
    for _ in 0..14 {
        times = times.wrapping_mul(2);
        let mut items = Vec::new(alloc);
        for _ in 0..times {
            items.push(7u8)?;
        }
        let context = one(alloc, "xs", to_value(alloc, &items)?)?;
        let text = line_of(alloc, template.render_from(&engine, &context).to_string())?;
        assert_eq!(&rt; text.len(), times.wrapping_mul(2));
    }
    Ok(())
}

// A list that serde writes has all of its items.
#[test]
fn lists_by_serde(rt: HostRuntime) -> Result<(), Fail> {
    let alloc = rt.alloc();
    let mut items = Vec::new(alloc);
    for _ in 0..5_000u32 {
        items.push(7u8)?;
    }
    let Ok(values) = to_value(alloc, &items)?.into_items() else {
        return Err(Fail::new("no list"));
    };
    assert_eq!(&rt; values.len(), 5_000);
    Ok(())
}

// A map that serde writes has all of its entries, each under its name.
#[test]
fn maps_by_serde(rt: HostRuntime) -> Result<(), Fail> {
    let alloc = rt.alloc();
    let mut map = BTreeMap::new(alloc);
    for i in 0..5_000u32 {
        drop(map.insert(format!(in alloc; "k{i}")?, i)?);
    }
    let Ok(entries) = to_value(alloc, &map)?.into_entries() else {
        return Err(Fail::new("no map"));
    };
    assert_eq!(&rt; entries.len(), 5_000);
    for i in 0..5_000u32 {
        let found = entries.get(&format!(in alloc; "k{i}")?);
        assert!(&rt; matches!(found, Some(Value::Integer(number)) if *number == i64::from(i)));
    }
    Ok(())
}

// An engine gives a thousand templates, each by its name.
#[test]
fn many_templates(rt: HostRuntime) -> Result<(), Fail> {
    let alloc = rt.alloc();
    let mut engine = Engine::new(alloc);
    for i in 0..1_000u32 {
        let name = format!(in alloc; "t{i}")?;
        let source = format!(in alloc; "{i}")?;
        engine.add_template(CowStr::Owned(name), CowStr::Owned(source))?;
    }
    for (name, wanted) in [("t0", "0"), ("t500", "500"), ("t999", "999")] {
        let Some(text) = engine.render_template(name, &Value::None) else {
            return Err(Fail::new("no template"));
        };
        assert_eq!(&rt; text?.as_str(), wanted);
    }
    Ok(())
}
