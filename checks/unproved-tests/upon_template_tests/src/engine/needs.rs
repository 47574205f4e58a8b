// The names that a template takes from its context, and the templates that it includes.
use std::alloc::{AllocError, Global};
use std::borrow::CowStr;
use std::test::Fail;
use upon::{Engine, includes, names_needed, needs_of};

// The names in a row, with blanks between.
fn joined(alloc: Global, names: &[&str]) -> Result<String, AllocError> {
    let mut line = String::new(alloc);
    for name in names {
        if !line.is_empty() {
            line.push(' ')?;
        }
        line.push_str(*name)?;
    }
    Ok(line)
}

// Names are what is wanted of a source.
fn are(line: &str, wanted: &str, source: &str) -> Result<(), Fail> {
    if line == wanted {
        Ok(())
    } else {
        Err(Fail::new(format_args!("{line:?} in place of {wanted:?}, of {source}")))
    }
}

// A source needs these names, and includes these templates.
fn says(
    alloc: Global,
    engine: &Engine<'_>,
    source: &str,
    needed: &str,
    included: &str,
) -> Result<(), Fail> {
    let template = engine.compile(CowStr::Borrowed(source))?;
    are(
        joined(alloc, names_needed(&template)?.as_slice())?.as_str(),
        needed,
        source,
    )?;
    are(
        joined(alloc, includes(&template)?.as_slice())?.as_str(),
        included,
        source,
    )
}

#[test]
fn names(rt: HostRuntime) -> Result<(), Fail> {
    let alloc = rt.alloc();
    let engine = Engine::new(alloc);
    for (source, needed, included) in [
        ("text", "", ""),
        ("{{ b }}{{ a.c }}{{ b }}", "a b", ""),
        ("{{ a | f: b }}", "a b", ""),
        ("{% with a as a %}{{ a }}{% endwith %}", "a", ""),
        ("{% with a as b %}{{ b }}{% endwith %}{{ b }}", "a b", ""),
        (
            "{% for x in xs %}{{ x }}{{ loop.index }}{% endfor %}",
            "xs",
            "",
        ),
        (
            "{% for k, v in m %}{{ k }}{{ v }}{{ w }}{% endfor %}",
            "m w",
            "",
        ),
        (
            "{% for x in xs %}{% else %}{{ x }}{{ loop }}{% endfor %}",
            "loop x xs",
            "",
        ),
        (
            "{% include \"t\" %}{% include \"s\" with v.w %}{% include \"t\" %}",
            "v",
            "s t",
        ),
        ("{% if false %}{% include \"zz\" %}{% endif %}", "", "zz"),
        (
            "{% with a as x %}{% with b as x %}{{ x }}{% endwith %}{{ x }}{% endwith %}{{ y }}",
            "a b y",
            "",
        ),
        (
            "{% for x in xs %}{% with y as z %}{{ x }}{{ z }}{{ u }}{% endwith %}{{ z }}{% else %}{{ x }}{% endfor %}{{ loop }}",
            "loop u x xs y z",
            "",
        ),
    ] {
        says(alloc, &engine, source, needed, included)?;
    }
    Ok(())
}

// What a template of an engine needs, in a line: names, templates, names that no template has, and whether an index
// begins a path.
fn engine_says(alloc: Global, engine: &Engine<'_>, name: &str, wanted: &str) -> Result<(), Fail> {
    let Some(needs) = needs_of(engine, name) else {
        return are("none", wanted, name);
    };
    let needs = needs?;
    let mut line = joined(alloc, needs.names())?;
    line.push_str(" | ")?;
    line.push_str(joined(alloc, needs.templates())?.as_str())?;
    line.push_str(" | ")?;
    line.push_str(joined(alloc, needs.missing())?.as_str())?;
    if needs.is_whole() {
        line.push_str(" | whole")?;
    }
    are(line.as_str(), wanted, name)
}

// An engine with the templates.
fn engine_of<'e>(alloc: Global, templates: &[(&str, &'e str)]) -> Result<Engine<'e>, Fail> {
    let mut engine = Engine::new(alloc);
    for (name, source) in templates {
        engine.add_template(CowStr::Borrowed(*name), CowStr::Borrowed(*source))?;
    }
    Ok(engine)
}

#[test]
fn shadowed(rt: HostRuntime) -> Result<(), Fail> {
    let alloc = rt.alloc();
    let engine = engine_of(
        alloc,
        &[
            ("a", "{{ a.b }}{{ loop }}"),
            ("x", "{{ x }}"),
            ("plain", "{% include \"a\" %}"),
            ("bound", "{% with b as a %}{% include \"a\" %}{% endwith %}"),
            (
                "looped",
                "{% for a in all %}{% include \"a\" %}{% endfor %}",
            ),
            (
                "otherwise",
                "{% for a in b %}{% else %}{% include \"a\" %}{% endfor %}",
            ),
            ("given", "{% include \"a\" with c.d %}{{ e }}"),
            (
                "twice",
                "{% with b as a %}{% include \"a\" %}{% endwith %}{% include \"plain\" %}",
            ),
            ("other", "{% with b as a %}{% include \"x\" %}{% endwith %}"),
        ],
    )?;
    for (name, wanted) in [
        ("a", "a loop |  | "),
        ("plain", "a loop | a | "),
        ("bound", "b loop | a | "),
        ("looped", "all | a | "),
        ("otherwise", "a b loop | a | "),
        ("given", "c e | a | "),
        ("twice", "a b loop | a plain | "),
        ("other", "b x | x | "),
        ("nowhere", "none"),
    ] {
        engine_says(alloc, &engine, name, wanted)?;
    }
    Ok(())
}

#[test]
fn reached(rt: HostRuntime) -> Result<(), Fail> {
    let alloc = rt.alloc();
    let engine = engine_of(
        alloc,
        &[
            ("leaf", "{{ x }}"),
            ("one", "{{ a }}{% include \"two\" %}"),
            ("two", "{{ b }}{% include \"three\" %}"),
            ("three", "{{ c }}{% include \"one\" %}"),
            (
                "self",
                "{% for x in xs %}{{ x }}{% include \"self\" %}{% endfor %}",
            ),
            (
                "never",
                "{% if false %}{% include \"gone\" %}{% endif %}{% include \"lost\" with v %}",
            ),
            ("far", "{% include \"never\" %}{% include \"leaf\" %}"),
            (
                "bound",
                "{% with 1 as v %}{% include \"never\" %}{% endwith %}",
            ),
            ("index", "{{ .0.name }}"),
            (
                "by_index",
                "{% with 1 as v %}{% include \"index\" %}{% endwith %}",
            ),
            ("on_value", "{% include \"index\" with v %}"),
        ],
    )?;
    for (name, wanted) in [
        ("leaf", "x |  | "),
        ("one", "a b c | one three two | "),
        ("self", "xs | self | "),
        ("never", "v |  | gone lost"),
        ("far", "v x | leaf never | gone lost"),
        ("bound", " | never | gone lost"),
        ("index", " |  |  | whole"),
        ("by_index", " | index |  | whole"),
        ("on_value", "v | index | "),
    ] {
        engine_says(alloc, &engine, name, wanted)?;
    }
    Ok(())
}

// Names that begin paths where every path is passed on, and those for which a block, a value or a ring stands between.
#[test]
fn passed_on(rt: HostRuntime) -> Result<(), Fail> {
    let alloc = rt.alloc();
    let engine = engine_of(
        alloc,
        &[
            ("a", "{{ a }}"),
            ("b", "{{ b }}{{ c }}"),
            (
                "free",
                "{{ r }}{% if x %}{% include \"a\" %}{% endif %}{% include \"b\" %}",
            ),
            (
                "below_for",
                "{% for a in list %}{{ a }}{{ n }}{% include \"a\" %}{% include \"b\" %}{% endfor %}",
            ),
            (
                "below_with",
                "{% with w as b %}{% include \"a\" %}{% include \"b\" %}{% endwith %}",
            ),
            ("on_value", "{% include \"b\" with v.x %}"),
            (
                "after",
                "{% for y in xs %}{% endfor %}{% with v as z %}{% endwith %}{% include \"free\" %}",
            ),
            ("first", "{{ r1 }}{% include \"second\" %}"),
            (
                "second",
                "{{ r2 }}{% with q as r3 %}{% include \"third\" %}{% endwith %}",
            ),
            ("third", "{{ r3 }}{{ r4 }}{% include \"first\" %}"),
        ],
    )?;
    for (name, wanted) in [
        ("free", "a b c r x | a b | "),
        ("below_for", "b c list n | a b | "),
        ("below_with", "a c w | a b | "),
        ("on_value", "v | b | "),
        ("after", "a b c r v x xs | a b free | "),
        ("first", "q r1 r2 r4 | first second third | "),
        ("second", "q r1 r2 r4 | first second third | "),
        ("third", "q r1 r2 r3 r4 | first second third | "),
    ] {
        engine_says(alloc, &engine, name, wanted)?;
    }
    Ok(())
}
