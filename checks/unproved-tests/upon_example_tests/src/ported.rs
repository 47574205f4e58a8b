// Tests of what upon's own documents show first, and of what they say of the syntax.
use std::test::Fail;
use upon_examples::ported::{nested, on_users, written};

#[test]
fn a_page_includes_two_others(rt: HostRuntime) -> std::result::Result<(), Fail> {
    assert_eq!(rt; nested(rt.alloc())?.as_str(), "Hello Ann!\nGoodbye Ann!");
    Ok(())
}

#[test]
fn a_page_is_written(rt: HostRuntime) -> std::result::Result<(), Fail> {
    let bytes = written(rt.alloc())?;
    assert!(rt; bytes.as_slice() == b"Hello Ann!".as_slice());
    Ok(())
}

// Texts of docs/FROM_UPON.md, and what they show.
const ROWS: &[(&str, &str)] = &[
    ("{{ true }} {{ 0x2a }} {{ \"a\\tb\" }}", "true 42 a\tb"),
    ("{{ user.name }}, {{ .user.age }}", "Ann, 40"),
    ("{{ users.1.name }}", "Bob"),
    ("{{ user?.mail }}|", "|"),
    ("{% if ?.guest %}a guest{% else %}no guest{% endif %}", "no guest"),
    ("{{ user.name | lower }}", "ann"),
    ("{{ user.age | add: 10 }}", "50"),
    ("{{ add(1, 2) }}, {{ abs(-3) }}, {{ eq(1, 2) }}", "3, 3, false"),
    ("{{ [1, [2, 3]] | last | last }}", "3"),
    (
        "{% if not enabled %}off{% else if user.age %}on{% else %}never{% endif %}",
        "on",
    ),
    (
        "{% for u in users %}{{ u.name }}{% if not loop.last %}, {% endif %}{% endfor %}",
        "Ann, Bob",
    ),
    (
        "{% for key, value in user %}{{ key }}={{ value }};{% endfor %}",
        "age=40;name=Ann;",
    ),
    ("{% with users.1.name as n %}{{ n }}{{ n }}{% endwith %}", "BobBob"),
    ("{% include \"hello\" %}", "Hello Ann!"),
    ("{% include \"card\" with user %}", "Ann (40)"),
    ("a  {{- 1 -}}  b", "a1b"),
    ("a{# not shown #}b", "ab"),
];

#[test]
fn the_syntax_shows_this(rt: HostRuntime) -> std::result::Result<(), Fail> {
    for (source, wanted) in ROWS {
        let text = on_users(rt.alloc(), source)?;
        assert_eq!(rt; text.as_str(), *wanted, "of {source}");
    }
    Ok(())
}
