// The example of the page on standard functions: a template that calls some, and is known not to fail.
use std::alloc::Global;
use std::test::Fail;
use upon::{Engine, Value};
use upon_shape_check::accepts::accepts;
use upon_shape_check::declared::Declared;
use upon_shape::shape::Shape;
use upon_std::table::ALL;
use upon_std_shapes::declare::declare_standard;

fn is_sure(alloc: Global, source: &'static str, sample: &Value) -> upon::Result<bool> {
    let mut engine = Engine::new(alloc);
    let mut declared = Declared::new(alloc, Shape::shown());
    for function in ALL.as_slice() {
        engine.add_function(function.name().into(), Box::new(alloc, *function)?)?;
    }
    declare_standard(alloc, ALL.as_slice(), &mut declared)?;
    engine.add_template("page".into(), source.into())?;
    let shape = Shape::of(alloc, sample)?;
    Ok(accepts(alloc, &engine, &declared, "page", &shape).is_ok())
}

#[test]
fn a_page_is_sure(rt: HostRuntime) -> Result<(), Fail> {
    let text = r#"{"name": "Ann", "tags": ["b", "a"], "n": 2}"#;
    let Ok(sample) = upon_json::context::context(rt.alloc(), Some(text), &[]) else {
        return Err(Fail::new(format_args!("no JSON")));
    };
    for (source, wanted) in [
        ("{{ name | upper }}: {{ join(sort(tags), \", \") }}", true),
        ("{{ n | upper }}", false),
        ("{{ add(n, 1) }}", false),
    ] {
        let found = is_sure(rt.alloc(), source, &sample)?;
        assert_eq!(rt; found, wanted, "of {source}");
    }
    Ok(())
}
