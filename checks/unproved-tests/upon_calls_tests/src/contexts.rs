// Checks on contexts: the status, and where and why pages may fail.
use std::alloc::{AllocError, Global};
use std::process::Abort;
use std::test::Fail;
use upon_calls::check::check;
use upon_calls::failure::Failure;
use upon_calls::names::names;
use upon_calls::render::{render, render_text};

// What a check says: "right", a refusal, or the places of pictures with their reasons and hints.
fn said(alloc: Global, templates: &str, options: &str) -> Result<String, AllocError> {
    match check(alloc, templates.as_bytes(), options.as_bytes()) {
        Ok(text) if text.is_empty() => String::from_str(alloc, "right"),
        Ok(_) => String::from_str(alloc, "right, with a text"),
        Err(Failure::Faults(pictures)) => places(alloc, pictures.as_str()),
        Err(failure) => failure.into_text(alloc),
    }
}

// The places of pictures with their reasons, and hints behind a bar, as ``page:1:4 may be missing: .. | there is `price` ``.
fn places(alloc: Global, pictures: &str) -> Result<String, AllocError> {
    let mut text = String::new(alloc);
    for line in pictures.lines() {
        if let Some((_, place)) = line.split_once(" --> ") {
            text.push_str(if text.is_empty() { "" } else { "; " })?;
            text.push_str(place)?;
        }
        if let Some((_, reason)) = line.split_once(" = reason: ") {
            text.push_str(" ")?;
            text.push_str(reason)?;
        }
        if let Some((_, hint)) = line.split_once("   = hint: ") {
            text.push_str(" | ")?;
            text.push_str(hint)?;
        }
    }
    Ok(text)
}

// Each row: the templates, the options, and what the check says.
fn all_are_said(
    rt: &impl Abort,
    alloc: Global,
    rows: &[(&str, &str, &str)],
) -> Result<(), Fail> {
    for (templates, options, wanted) in rows {
        let said = said(alloc, templates, options)?;
        assert!(rt; said.as_str() == *wanted, "{said} in place of {wanted}, of {templates} {options}");
    }
    Ok(())
}

#[test]
fn samples(rt: HostRuntime) -> Result<(), Fail> {
    let rows = [
        (r#"{"page": "{{ name }}"}"#, r#"{"samples": [{"name": "John"}]}"#, "right"),
        (r#"{"page": "{{ name }}"}"#, r#"{"samples": [{"name": 1}, {"name": null}]}"#, "right"),
        (
            r#"{"page": "{{ name }}"}"#,
            r#"{"samples": [{"name": "John"}, {}]}"#,
            "page:1:4 may be missing: the value is a map with name?",
        ),
        (
            r#"{"page": "{{ name }}"}"#,
            r#"{"samples": [{"nam": 1}]}"#,
            "page:1:4 may be missing: the value is a map with nam | there is `nam`",
        ),
        (r#"{"page": "{% for x in items %}{{ x }}{% endfor %}"}"#, r#"{"samples": [[1, "a"], []]}"#, "right"),
        (
            r#"{"page": "{% for x in items %}{{ x }}{% endfor %}"}"#,
            r#"{"samples": [[1, [2]]]}"#,
            "page:1:24 may have no text: the value is integer or a list of integers",
        ),
        (
            r#"{"page": "{% for r in rows %}{{ r.prise }}{% endfor %}"}"#,
            r#"{"samples": [{"rows": [{"name": "a", "price": 1}]}]}"#,
            "page:1:24 may be missing: the value is a map with name, price | there is `price`",
        ),
        (
            r#"{"page": "{% for r in rows %}{% endfor %}"}"#,
            r#"{"samples": [{"rows": [1]}, {"rows": null}]}"#,
            "page:1:13 may have no items: the value is a list of integers or none",
        ),
        (
            r#"{"page": "{% for k, v in m %}{{ k.x }}{% endfor %}"}"#,
            r#"{"samples": [{"m": {"a": 1}}]}"#,
            "page:1:24 may be missing: the value is the key or the state of a loop",
        ),
        (r#"{"page": "{% if u?.a %}{{ u.a }}{% endif %}"}"#, r#"{"samples": [{"u": {}}, {"u": {"a": 1}}]}"#, "right"),
    ];
    all_are_said(&rt, rt.alloc(), &rows)
}

// The hints of a page on samples of what `m` has.
fn hints_of(alloc: Global, page: &str, samples: &[&str]) -> Result<String, AllocError> {
    let mut contexts = Vec::new(alloc);
    for sample in samples {
        contexts.push(format!(in alloc; r#"{{"m": {sample}}}"#)?)?;
    }
    let templates = format!(in alloc; r#"{{"page": "{page}"}}"#)?;
    let listed = contexts.as_slice().join(alloc, ", ")?;
    let options = format!(in alloc; r#"{{"samples": [{listed}], "functions": true}}"#)?;
    let said = said(alloc, templates.as_str(), options.as_str())?;
    match said.as_str().split_once(" | ") {
        Some((_, hints)) => String::from_str(alloc, hints),
        None => Ok(String::new(alloc)),
    }
}

// Each row: a page, samples of what `m` has, and the hint.
#[test]
fn hints(rt: HostRuntime) -> Result<(), Fail> {
    let alloc = rt.alloc();
    let map = r#"{"price": 1, "name": "a"}"#;
    let near = "there is `price`";
    let rows: [(&str, &[&str], &str); 24] = [
        ("{{ m.prise }}", &[map], near),
        ("{{ m.prcie }}", &[map], near),
        ("{{ m.pric }}", &[map], near),
        ("{{ m.prices }}", &[map], near),
        ("{{ m.cost }}", &[map], ""),
        ("{{ n }}", &[map], "there is `m`"),
        // Wherever it stands, the name alone counts.
        ("{{ m .  prise }}", &[map], near),
        ("{{ m.prise.x }}", &[map], near),
        ("{{ m.prise | upper }}", &[map], near),
        ("{{ m?.prise }}", &[map, "1"], near),
        ("{% for x in m.prise %}{% endfor %}", &[map], near),
        ("{% for x in m %}{{ x.prise }}{% endfor %}", &[r#"[{"price": 1}]"#], near),
        ("{% with m as n %}{{ n.prise }}{% endwith %}", &[map], near),
        // The nearest names.
        ("{{ m.prixe }}", &[r#"{"price": 1, "prize": 1}"#], "there are `price` and `prize`"),
        ("{{ m.pric }}", &[r#"{"price": 1, "prices": 1}"#], near),
        ("{{ m.b }}", &[r#"{"a": 1, "c": 1, "d": 1}"#], "there are `a` and `c`"),
        // A key that may be missing, where another one is written, and where it is itself.
        ("{{ m.prise }}", &[map, "{}"], near),
        ("{{ m.price }}", &[map, "{}"], ""),
        ("{{ m.prize }}", &[r#"{"price": 1}"#, r#"{"prize": 1}"#], ""),
        // No keys, and an index, which is no name.
        ("{{ m.b }}", &["{}"], ""),
        ("{{ m.b }}", &["[1]"], ""),
        ("{{ m.0 }}", &[r#"{"a": 1}"#], ""),
        // What is no member of a map.
        ("{% for x in m %}{{ loop.indx }}{% endfor %}", &["[1]"], ""),
        ("{{ uper(m) }}", &[r#""a""#], ""),
    ];
    for (page, samples, wanted) in rows {
        let hints = hints_of(alloc, page, samples)?;
        assert!(&rt; hints.as_str() == wanted, "{hints} in place of {wanted}, of {page}");
    }
    Ok(())
}

// A picture with its hint, which is shown once.
#[test]
fn hinted_picture(rt: HostRuntime) -> Result<(), Fail> {
    let templates = r#"{"row": "{{ prise }}", "page": "{% include \"row\" %}{% include \"row\" %}"}"#;
    let wanted = "render error\n\n  --> row:1:4\n   |\n 1 | {{ prise }}\n   |    ^^^^^\n   |\n   = reason: may be missing: the value is a map with price\n   = hint: there is `price`\n";
    let Err(Failure::Faults(pictures)) = check(rt.alloc(), templates.as_bytes(), b"{\"samples\": [{\"price\": 1}]}") else {
        return Err(Fail::new("a fault is missing"));
    };
    assert!(&rt; pictures.as_str() == wanted, "{pictures}");
    Ok(())
}

#[test]
fn pages(rt: HostRuntime) -> Result<(), Fail> {
    let templates = r#"{"page": "{% include \"row\" with user %}", "row": "{{ name }}"}"#;
    let sample = r#""samples": [{"user": {"name": "J"}}]"#;
    let alloc = rt.alloc();
    let rows = [
        ("", "row:1:4 may be missing: the value is a map with user"),
        (r#", "pages": ["page"]"#, "right"),
        (r#", "pages": ["page", "page"]"#, "right"),
        (r#", "pages": []"#, "right"),
        (r#", "pages": ["row"]"#, "row:1:4 may be missing: the value is a map with user"),
        (r#", "pages": ["row", "page", "row"]"#, "row:1:4 may be missing: the value is a map with user"),
        (r#", "pages": ["page", "rows"]"#, r#"options: "pages": no template is named "rows""#),
        (r#", "pages": "page""#, r#"options: "pages" wants a list of names"#),
        (r#", "pages": [1]"#, r#"options: "pages" wants a list of names"#),
    ];
    for (pages, wanted) in rows {
        let options = format!(in alloc; "{{{sample}{pages}}}")?;
        all_are_said(&rt, alloc, &[(templates, options.as_str(), wanted)])?;
    }
    let missing = r#"{"page": "{% include \"row\" %}"}"#;
    let options = r#"{"samples": [{}], "pages": ["page"]}"#;
    all_are_said(&rt, alloc, &[(missing, options, "page:1:12 unknown template")])?;
    let broken = r#"{"page": "{{ a }}", "row": "{{"}"#;
    all_are_said(&rt, alloc, &[(broken, options, "row:1:3 expected token, found EOF")])
}

#[test]
fn options(rt: HostRuntime) -> Result<(), Fail> {
    let rows = [
        (r#"{"a": "{{ t }}"}"#, r#"{"samples": [{"t": "x"}], "escape": "html"}"#, "right"),
        (r#"{"a": "{{ t }}"}"#, r#"{"samples": [{"t": "x"}], "html": true}"#, "right"),
        (r#"{"a": "{{ t }}"}"#, r#"{"samples": [{"t": "x"}], "escape": "json"}"#, "right"),
        (r#"{"a": "{{ t }}"}"#, r#"{"samples": [{"t": "x"}], "escape": "yaml"}"#, "right"),
        (r#"{"a": "{{ t }}"}"#, r#"{"samples": [{"t": 1}, {"t": true}], "escape": "shell"}"#, "right"),
        // A word of a shell cannot hold the character U+0000, which a text may have.
        (
            r#"{"a": "{{ t }}"}"#,
            r#"{"samples": [{"t": "x"}], "escape": "shell"}"#,
            "a:1:4 may have no text: the value is text",
        ),
        (r#"{"a": "{{ t | verbatim }}"}"#, r#"{"samples": [{"t": "x"}], "escape": "shell"}"#, "right"),
        (
            r#"{"a": "{{ t | verbatim }}"}"#,
            r#"{"samples": [{"t": [1]}], "html": true}"#,
            "a:1:8 may have no text: the value is a list of integers",
        ),
        (
            r#"{"a": "{{ t | verbatim }}"}"#,
            r#"{"samples": [{"t": 1}]}"#,
            "a:1:8 nothing is known of what this function takes",
        ),
        (r#"{"a": "<? t ?>{{ u }}"}"#, r#"{"samples": [{"t": 1}], "syntax": [["expr", "<?", "?>"]]}"#, "right"),
        (
            r#"{"a": "{% include \"a\" %}"}"#,
            r#"{"samples": [{}], "max_include_depth": 2, "max_steps": 1, "max_output": 0, "max_memory": 0}"#,
            "right",
        ),
    ];
    all_are_said(&rt, rt.alloc(), &rows)
}

#[test]
fn functions(rt: HostRuntime) -> Result<(), Fail> {
    let rows = [
        (r#"{"a": "{{ t | upper }}"}"#, r#"{"samples": [{"t": "x"}], "functions": true}"#, "right"),
        (r#"{"a": "{{ upper(t) }}"}"#, r#"{"samples": [{"t": "x"}], "functions": true, "html": true}"#, "right"),
        (
            r#"{"a": "{{ upper(t) }}"}"#,
            r#"{"samples": [{"t": "x"}]}"#,
            "a:1:4 nothing is known of what this function takes",
        ),
        (
            r#"{"a": "{{ upper(t) }}"}"#,
            r#"{"samples": [{"t": [1]}], "functions": true}"#,
            "a:1:4 may refuse its arguments: a list of integers",
        ),
    ];
    all_are_said(&rt, rt.alloc(), &rows)
}

#[test]
fn schemas(rt: HostRuntime) -> Result<(), Fail> {
    let page = r#"{"page": "{% for x in xs %}{{ x }}{% endfor %}"}"#;
    let rows = [
        (
            page,
            r#"{"schema": {"type": "object", "properties": {"xs": {"type": "array", "items": {"type": "string"}}}, "required": ["xs"]}}"#,
            "right",
        ),
        (
            page,
            r#"{"schema": {"type": "object", "properties": {"xs": {"type": "array", "items": {"type": "string"}}}}}"#,
            "page:1:13 may be missing: the value is a map with xs?, ..",
        ),
        (page, r#"{"schema": true}"#, "page:1:13 may be missing: the value is any value"),
        (r#"{"page": "x"}"#, r#"{"schema": true}"#, "right"),
    ];
    all_are_said(&rt, rt.alloc(), &rows)?;
    for options in [r#"{"schema": 1}"#, r#"{"schema": {"type": "text"}}"#, r#"{"schema": {"minimum": 1}}"#] {
        let said = said(rt.alloc(), page, options)?;
        assert!(&rt; said.as_str().starts_with("options: \"schema\": "), "{said}");
    }
    Ok(())
}

#[test]
fn refused(rt: HostRuntime) -> Result<(), Fail> {
    let wants = "options: \"samples\" wants a list of contexts, objects or lists, with one of them at least";
    let rows = [
        (r#"{"samples": []}"#, wants),
        (r#"{"samples": {}}"#, wants),
        (r#"{"samples": [1]}"#, wants),
        (r#"{"samples": [{}, null]}"#, wants),
        (r#"{"samples": [{}], "schema": true}"#, "options: \"schema\" wants no \"samples\" beside it"),
        (r#"{"pages": ["a"]}"#, "options: \"pages\" wants \"samples\" or \"schema\" beside it"),
        (r#"{"samples": [{}], "page": ["a"]}"#, "options: unknown key \"page\""),
        (r#"{"samples": [{}], "html": 1}"#, "options: \"html\" wants true or false"),
    ];
    let alloc = rt.alloc();
    for (options, wanted) in rows {
        all_are_said(&rt, alloc, &[(r#"{"a": "x"}"#, options, wanted)])?;
    }
    Ok(())
}

// The other calls have no such options.
#[test]
fn other_calls(rt: HostRuntime) -> Result<(), Fail> {
    let alloc = rt.alloc();
    for (options, wanted) in [
        (r#"{"samples": [{}]}"#, "options: unknown key \"samples\""),
        (r#"{"schema": {}}"#, "options: unknown key \"schema\""),
        (r#"{"pages": ["a"]}"#, "options: unknown key \"pages\""),
    ] {
        let options = options.as_bytes();
        for given in [
            render(alloc, b"{\"a\": \"x\"}", b"", b"a", options),
            render_text(alloc, b"x", b"", options),
            names(alloc, b"{\"a\": \"x\"}", b"a", options),
        ] {
            let Err(failure) = given else {
                return Err(Fail::new("a refusal is missing"));
            };
            assert!(&rt; failure.into_text(alloc)?.as_str() == wanted, "{wanted}");
        }
    }
    Ok(())
}

const MISFITS: u32 = 300; // ./test: 101

// A template with more misfits than are shown, and pictures with a blank line between two.
#[test]
fn pictures(rt: HostRuntime) -> Result<(), Fail> {
    let alloc = rt.alloc();
    let mut templates = String::from_str(alloc, "{\"a\": \"")?;
    for i in 0..MISFITS {
        templates.push_str(format!(in alloc; "{{{{ x{i} }}}}")?.as_str())?;
    }
    templates.push_str("\"}")?;
    let Err(Failure::Faults(pictures)) = check(alloc, templates.as_bytes(), b"{\"samples\": [{}]}") else {
        return Err(Fail::new("a fault is missing"));
    };
    let count = pictures.as_str().matches("may be missing: the value is an empty map").count();
    assert!(&rt; count == 100, "{count} pictures");
    let first = "render error\n\n  --> a:1:4\n   |\n 1 | {{ x }}{{ y }}\n   |    ^--\n   |\n   = reason: may be missing: the value is an empty map\n";
    let second = "render error\n\n  --> a:1:11\n   |\n 1 | {{ x }}{{ y }}\n   |           ^--\n   |\n   = reason: may be missing: the value is an empty map\n";
    let both = format!(in alloc; "{first}\n{second}")?;
    let Err(Failure::Faults(pictures)) = check(alloc, b"{\"a\": \"{{ x }}{{ y }}\"}", b"{\"samples\": [{}]}") else {
        return Err(Fail::new("a fault is missing"));
    };
    assert!(&rt; pictures.as_str() == both.as_str(), "{pictures}");
    Ok(())
}
