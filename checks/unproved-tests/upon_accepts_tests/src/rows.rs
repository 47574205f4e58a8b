// Templates on one sample: accepted ones, and the places of the others.
use crate::said::{engine_of, said_of};
use std::alloc::Global;
use std::borrow::CowStr;
use std::test::Fail;
use upon::Engine;

const SAMPLE: &str = r#"{"name": "J", "n": 1, "b": true, "nil": null, "list": [1, 2], "empty": [],
    "rows": [{"id": 1, "t": "a"}, {"id": 2, "t": "b", "x": 1}], "user": {"name": "N", "age": 3},
    "map": {"a": 1, "b": 2}, "deep": {"er": {"most": 1}},
    "tree": {"v": 1, "kids": [{"v": 2, "kids": []}, {"v": 3, "kids": [{"v": 4, "kids": []}]}]}}"#;

// The keys of a sample, beside the one that is shown.
const KEYS: usize = 6_000; // ./test: 600

// Each row: the template, the one that it may include as `t`, and what is said.
fn all_are_said(alloc: Global, rows: &[(&str, &str, &str)]) -> Result<(), Fail> {
    let sample = upon_json::context::context(alloc, Some(SAMPLE), &[]);
    let Ok(sample) = sample else {
        return Err(Fail::new(format_args!("the sample is no JSON")));
    };
    for (main, other, wanted) in rows {
        let Some(engine) = engine_of(alloc, main, other)? else {
            return Err(Fail::new(format_args!("no template: {main} {other}")));
        };
        let said = said_of(alloc, &engine, &sample)?;
        if said.as_str() != *wanted {
            return Err(Fail::new(format_args!("{said:?} in place of {wanted:?}, of {main}")));
        }
    }
    Ok(())
}

#[test]
fn accepted_values(rt: HostRuntime) -> Result<(), Fail> {
    all_are_said(
        rt.alloc(),
        &[
            ("", "", "accepted"),
            ("a text", "", "accepted"),
            ("{# a comment #}", "", "accepted"),
            ("{{ name }}", "", "accepted"),
            ("{{ n }}", "", "accepted"),
            ("{{ b }}", "", "accepted"),
            ("{{ nil }}", "", "accepted"),
            ("{{ (name) }}", "", "accepted"),
            ("{{ user.name }}", "", "accepted"),
            ("{{ user.age }}", "", "accepted"),
            ("{{ deep.er.most }}", "", "accepted"),
            ("{{ user?.name }}", "", "accepted"),
            ("{{ user?.nick }}", "", "accepted"),
            ("{{ deep?.ee?.most }}", "", "accepted"),
            ("{{ \"a\" }}{{ 1 }}{{ true }}", "", "accepted"),
            ("{% with {\"a\": 1} as m %}{{ m.a }}{% endwith %}", "", "accepted"),
            ("{% with {\"a\": 1, \"a\": \"x\"} as m %}{{ m.a }}{% endwith %}", "", "accepted"),
            ("{% with user as u %}{{ u.name }}{% endwith %}", "", "accepted"),
            ("{% with 1 as user %}{{ user }}{% endwith %}", "", "accepted"),
            ("{% with user as user %}{{ user.age }}{% endwith %}{{ user.age }}", "", "accepted"),
        ],
    )
}

#[test]
fn accepted_blocks(rt: HostRuntime) -> Result<(), Fail> {
    all_are_said(
        rt.alloc(),
        &[
            ("{% if b %}x{% endif %}", "", "accepted"),
            ("{% if not name %}x{% else %}{{ name }}{% endif %}", "", "accepted"),
            ("{% if user %}{% else if n %}{{ n }}{% else %}{{ b }}{% endif %}", "", "accepted"),
            ("{% if user?.nick %}{{ user.nick }}{% endif %}", "", "accepted"),
            ("{% if not user?.nick %}{% else %}{{ user.nick }}{% endif %}", "", "accepted"),
            ("{% for x in list %}{{ x }}{% endfor %}", "", "accepted"),
            ("{% for x in list %}{{ loop.index }}{{ loop.first }}{{ loop.last }}{% endfor %}", "", "accepted"),
            ("{% for x in empty %}{{ x }}{% else %}{{ n }}{% endfor %}", "", "accepted"),
            ("{% for x in empty %}{{ x.any.thing }}{% endfor %}", "", "accepted"),
            ("{% for r in rows %}{{ r.id }}{{ r.t }}{% endfor %}", "", "accepted"),
            ("{% for r in rows %}{{ r?.x }}{% endfor %}", "", "accepted"),
            ("{% for r in rows %}{% if r?.x %}{{ r.x }}{% endif %}{% endfor %}", "", "accepted"),
            ("{% for k, v in map %}{{ k }}{{ v }}{% endfor %}", "", "accepted"),
            ("{% for k, v in user %}{{ k }}{{ v }}{% endfor %}", "", "accepted"),
            ("{% for k, v in {\"a\": 1} %}{{ v }}{% endfor %}", "", "accepted"),
            ("{% for x in [1, \"a\", name] %}{{ x }}{% endfor %}", "", "accepted"),
            ("{% for r in [user, {\"age\": 1}] %}{{ r.age }}{% endfor %}", "", "accepted"),
            ("{% for x in list %}{% for y in list %}{{ x }}{{ y }}{% endfor %}{% endfor %}", "", "accepted"),
            ("{% for x in list %}{% endfor %}{{ name }}", "", "accepted"),
            ("{% if b %}{% if n %}x{% else %}{% endif %}{% endif %}{{ name }}", "", "accepted"),
            ("{% with map.a as z %}{% for x in list %}{{ z }}{{ x }}{% endfor %}{% endwith %}", "", "accepted"),
            ("{% for r in rows %}{% with r.t as t %}{{ t }}{% endwith %}{% endfor %}", "", "accepted"),
            ("{% for k, v in deep %}{{ v.most }}{% endfor %}", "", "accepted"),
        ],
    )
}

#[test]
fn accepted_includes(rt: HostRuntime) -> Result<(), Fail> {
    all_are_said(
        rt.alloc(),
        &[
            ("{% include \"t\" %}", "{{ name }}", "accepted"),
            ("{% include \"t\" with user %}", "{{ name }}{{ age }}", "accepted"),
            ("{% include \"t\" with {\"z\": n} %}", "{{ z }}", "accepted"),
            ("{% for r in rows %}{% include \"t\" %}{% endfor %}", "{{ r.id }}{{ n }}", "accepted"),
            ("{% for r in rows %}{% include \"t\" with r %}{% endfor %}", "{{ id }}", "accepted"),
            ("{% with 1 as z %}{% include \"t\" %}{% endwith %}", "{{ z }}", "accepted"),
            ("{% include \"t\" %}{% include \"t\" with user %}", "{{ name }}", "accepted"),
            ("{% include \"t\" %}", "{% if b %}{% include \"main\" %}{% endif %}{{ n }}", "accepted"),
            ("{% include \"t\" with tree %}", "{{ v }}{% for k in kids %}{% include \"t\" with k %}{% endfor %}", "accepted"),
            ("{% if user?.nick %}{% include \"t\" %}{% endif %}", "{{ user.nick }}", "accepted"),
            ("{% include \"t\" %}", "{% with name as z %}{% endwith %}{{ n }}", "accepted"),
        ],
    )
}

#[test]
fn refused_values(rt: HostRuntime) -> Result<(), Fail> {
    all_are_said(
        rt.alloc(),
        &[
            ("{{ missing }}", "", "member at 3..10 in main"),
            ("{{ user.nick }}", "", "member at 7..12 in main"),
            ("{{ user }}", "", "text at 3..7 in main"),
            ("{{ list }}", "", "text at 3..7 in main"),
            ("{{ name.x }}", "", "member at 7..9 in main"),
            ("{{ nil.x }}", "", "member at 6..8 in main"),
            ("{{ list.0 }}", "", "member at 7..9 in main"),
            ("{{ n.0 }}", "", "member at 4..6 in main"),
            ("{{ map.0 }}", "", "member at 6..8 in main"),
            ("{{ list.a }}", "", "member at 7..9 in main"),
            ("{{ user?.nick.x }}", "", "accepted"),
            ("{{ deep.er.mast }}", "", "member at 10..15 in main"),
            ("{{ name | upper }}", "", "call at 10..15 in main"),
            ("{{ upper(name) }}", "", "call at 3..8 in main"),
            ("{{ upper(missing) }}", "", "member at 9..16 in main"),
            ("{{ [1] }}", "", "text at 3..6 in main"),
            ("{{ {\"a\": 1} }}", "", "text at 3..11 in main"),
            ("{{ missing }}{{ user }}", "", "member at 3..10 in main, text at 16..20 in main"),
            ("{% with [1] as l %}{{ l.0 }}{% endwith %}", "", "member at 23..25 in main"),
            ("{% with missing as m %}{{ m }}{{ m.a }}{% endwith %}", "", "member at 8..15 in main"),
        ],
    )
}

#[test]
fn refused_blocks(rt: HostRuntime) -> Result<(), Fail> {
    all_are_said(
        rt.alloc(),
        &[
            ("{% if missing %}{% endif %}", "", "member at 6..13 in main"),
            ("{% if b %}{{ missing }}{% endif %}", "", "member at 13..20 in main"),
            ("{% if b %}{% else %}{{ missing }}{% endif %}", "", "member at 23..30 in main"),
            ("{% if user?.nick %}{% else %}{{ user.nick }}{% endif %}", "", "member at 36..41 in main"),
            ("{% for x in n %}{{ x }}{% endfor %}", "", "items at 12..13 in main"),
            ("{% for x in user %}{{ x }}{% endfor %}", "", "items at 12..16 in main"),
            ("{% for k, v in list %}{{ k }}{% endfor %}", "", "items at 15..19 in main"),
            ("{% for x in missing %}{{ x.y }}{% endfor %}", "", "member at 12..19 in main"),
            ("{% for r in rows %}{{ r.x }}{% endfor %}", "", "member at 23..25 in main"),
            ("{% for x in list %}{{ loop }}{% endfor %}", "", "text at 22..26 in main"),
            ("{% for x in list %}{{ loop.nope }}{% endfor %}", "", "loop member at 26..31 in main"),
            ("{% for k, v in map %}{{ k.x }}{% endfor %}", "", "loop member at 25..27 in main"),
            ("{% for x in list %}{% endfor %}{{ x }}", "", "member at 34..35 in main"),
            ("{% with user as u %}{% endwith %}{{ u }}", "", "member at 36..37 in main"),
            ("{% for x in list %}{% else %}{{ x }}{% endfor %}", "", "member at 32..33 in main"),
            ("{% for k, v in user %}{{ v.x }}{% endfor %}", "", "member at 26..28 in main"),
            ("{% with user.name as z %}{{ z.x }}{% endwith %}", "", "member at 29..31 in main"),
            ("{% if list.0 %}x{% endif %}", "", "member at 10..12 in main"),
        ],
    )
}

#[test]
fn refused_includes(rt: HostRuntime) -> Result<(), Fail> {
    all_are_said(
        rt.alloc(),
        &[
            ("{% include \"none\" %}", "", "include at 11..17 in main"),
            ("{% include \"t\" %}", "{{ missing }}", "member at 3..10 in t"),
            ("{% include \"t\" with n %}", "{{ name }}", "member at 3..7 in t"),
            ("{% include \"t\" with user %}", "{{ n }}", "member at 3..4 in t"),
            ("{% include \"t\" with list %}", "{{ name }}", "member at 3..7 in t"),
            ("{% for r in rows %}{% include \"t\" with r %}{% endfor %}", "{{ n }}", "member at 3..4 in t"),
            ("{% include \"t\" with missing %}", "{{ n }}", "member at 20..27 in main"),
            ("{% include \"t\" with [1] %}", "{% include \"t\" with [nope] %}", "member at 21..25 in t"),
        ],
    )
}

const RING: usize = 1_000; // ./test: 100

// So many templates, each of which includes the next one, and the last the first.
#[test]
fn a_ring(rt: HostRuntime) -> Result<(), Fail> {
    let alloc = rt.alloc();
    let mut engine = Engine::new(alloc);
    for number in 0..RING {
        let next = (number + 1) % RING;
        let name = if number == 0 {
            String::from_str(alloc, "main")?
        } else {
            format!(in alloc; "t{number}")?
        };
        let next = if next == 0 {
            String::from_str(alloc, "main")?
        } else {
            format!(in alloc; "t{next}")?
        };
        let text = format!(in alloc; "{{{{ n }}}}{{% if b %}}{{% include \"{next}\" %}}{{% endif %}}")?;
        engine.add_template(CowStr::Owned(name), CowStr::Owned(text))?;
    }
    for (sample, wanted) in [
        (r#"{"n": 1, "b": true}"#, "accepted"),
        (r#"{"n": 1, "b": 2}"#, "accepted"),
    ] {
        let Ok(sample) = upon_json::context::context(alloc, Some(sample), &[]) else {
            return Err(Fail::new(format_args!("the sample is no JSON")));
        };
        assert_eq!(&rt; said_of(alloc, &engine, &sample)?.as_str(), wanted);
    }
    Ok(())
}

// Each key of a sample is known, however many there are.
#[test]
fn a_sample_of_many_keys(rt: HostRuntime) -> Result<(), Fail> {
    let alloc = rt.alloc();
    let mut json = String::from_str(alloc, "{\"shown\": 1")?;
    for number in 0..KEYS {
        json.push_str(format!(in alloc; ", \"k{number}\": 1")?.as_str())?;
    }
    json.push('}')?;
    let Ok(sample) = upon_json::context::context(alloc, Some(json.as_str()), &[]) else {
        return Err(Fail::new(format_args!("the sample is no JSON")));
    };
    for (main, wanted) in [("{{ shown }}", "accepted"), ("{{ other }}", "member at 3..8 in main")] {
        let Some(engine) = engine_of(alloc, main, "")? else {
            return Err(Fail::new(format_args!("no template: {main}")));
        };
        assert_eq!(&rt; said_of(alloc, &engine, &sample)?.as_str(), wanted);
    }
    Ok(())
}
