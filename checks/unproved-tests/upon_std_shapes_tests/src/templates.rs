// Templates that call standard functions, on the shape of a sample: those that are accepted are rendered.
use crate::tables::all_declared;
use std::alloc::{AllocError, Global};
use std::borrow::CowStr;
use std::test::Fail;
use upon::{Engine, Value};
use upon_shape_check::accepts::accepts;
use upon_shape::shape::Shape;
use upon_std::table::ALL;

const SAMPLE: &str = r#"{"name": "J", "n": 1, "b": true, "nil": null, "numbers": [2, 1], "tags": ["b", "a"], "empty": [],
    "mixed": [1, "a", null], "rows": [{"id": 1, "t": "a"}, {"id": 2, "t": "b", "x": 1}],
    "map": {"a": "x", "b": "y"}, "user": {"name": "N", "tags": ["a"]}}"#;

// An engine with the standard functions and a template.
fn engine_of(alloc: Global, template: &str) -> Result<Option<Engine<'static>>, AllocError> {
    let mut engine = Engine::new(alloc);
    for function in ALL.as_slice() {
        engine.add_function(CowStr::Borrowed(function.name()), Box::new(alloc, *function)?)?;
    }
    let text = CowStr::Owned(String::from_str(alloc, template)?);
    if engine.add_template(CowStr::Borrowed("main"), text).is_err() {
        return Ok(None);
    }
    Ok(Some(engine))
}

// Each of the templates is accepted, or none is; those that are accepted end well on the sample.
fn all_are(alloc: Global, accepted: bool, templates: &[&str]) -> Result<(), Fail> {
    let Ok(sample) = upon_json::context::context(alloc, Some(SAMPLE), &[]) else {
        return Err(Fail::new(format_args!("the sample is no JSON")));
    };
    let shape = Shape::of(alloc, &sample)?;
    let declared = all_declared(alloc)?;
    for template in templates {
        let Some(engine) = engine_of(alloc, template)? else {
            return Err(Fail::new(format_args!("no template: {template}")));
        };
        if accepts(alloc, &engine, &declared, "main", &shape).is_ok() != accepted {
            return Err(Fail::new(format_args!("accepted, or not: {template}")));
        }
        if accepted && !ends_well(&engine, &sample) {
            return Err(Fail::new(format_args!("accepted, and fails: {template}")));
        }
    }
    Ok(())
}

// Whether the template has a text on the sample.
fn ends_well(engine: &Engine<'_>, sample: &Value) -> bool {
    matches!(engine.render_template("main", sample), Some(Ok(_)))
}

#[test]
fn accepted(rt: HostRuntime) -> Result<(), Fail> {
    all_are(
        rt.alloc(),
        true,
        &[
            "{{ upper(name) }}{{ name | lower | trim }}",
            "{{ eq(name, n) }}{{ ne(rows, nil) }}{{ lt(n, 3) }}{{ ge(name, \"a\") }}{{ and(b, rows) }}",
            "{% if starts_with(name, \"J\") %}{{ contains(name, \"a\") }}{% endif %}",
            "{{ default(nil, \"none\") }}{{ default(name, n) }}{{ upper(default(nil, \"a\")) }}",
            "{{ choose(b, name, \"b\") | upper }}{{ choose(b, name, n) }}",
            "{{ first(tags) }}{{ last(numbers) }}{{ first(empty) }}{{ first(mixed) }}{{ upper(default(first(tags), \"\")) }}",
            "{% for x in reverse(tags) %}{{ x | upper }}{% endfor %}{% for x in sort(numbers) %}{{ x }}{% endfor %}",
            "{{ join(sort(tags), \", \") }}{{ join(keys(user), \" \") }}{{ join(values(map), \" \") }}",
            "{% for x in unique(mixed) %}{{ x }}{% endfor %}{% for x in concat(numbers, tags) %}{{ x }}{% endfor %}",
            "{{ get(map, \"c\", \"\") | upper }}",
            "{% for g in group_by(rows, \"t\") %}{{ g.key }}{% for r in g.items %}{{ get(r, \"id\", 0) }}{% endfor %}{% endfor %}",
            "{% for x in pluck(rows, \"x\") %}{{ x }}{% endfor %}",
            "{% for r in where(rows, \"id\", 1) %}{{ get(r, \"t\", \"\") }}{% endfor %}",
            "{% for l in lines(name) %}{{ l | upper }}{% endfor %}",
            "{{ json(rows) }}{{ yaml(name) }}{{ url(name) }}{{ base64(name) | lower }}",
            "{{ join(default(user?.nicks, []), \", \") }}{{ join(default(user?.tags, []), \", \") }}",
            "{{ json(user.tags) }}{% with keys(map) as ks %}{{ join(ks, \"\") }}{% endwith %}",
        ],
    )
}

#[test]
fn not_accepted(rt: HostRuntime) -> Result<(), Fail> {
    all_are(
        rt.alloc(),
        false,
        &[
            "{{ upper(n) }}",
            "{{ upper(nil) }}",
            "{{ upper(first(tags)) }}",
            "{{ upper(name, name) }}",
            "{{ lt(n, name) }}",
            "{{ add(n, 1) }}",
            "{{ length(tags) }}",
            "{{ join(numbers, \"\") }}",
            "{{ sort(mixed) | first }}",
            "{{ sort_by(rows, \"id\") | json }}",
            "{{ keys(tags) }}",
            "{{ first(name) }}",
            "{{ reverse(tags) }}",
            "{{ shell(name) }}",
            "{{ split(name, name) }}",
            "{% for x in pluck(rows, \"x\") %}{{ upper(x) }}{% endfor %}",
            "{% for r in reverse(rows) %}{{ r.id }}{% endfor %}",
        ],
    )
}
