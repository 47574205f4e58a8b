// Each call, and each error that safe code can reach.
use upon_proved::{check, check_on, names, render, render_text, version, Contexts, Error, Options};

const TEMPLATES: [(&str, &str); 2] = [("page", "{% include \"head\" %} {{ text }}"), ("head", "# \"{{ title }}\"\n\u{1}")];
const CONTEXT: &str = r#"{"title": "é", "text": "a < b"}"#;
const PICTURE: &str =
    "render error\n\n  --> page:1:4\n   |\n 1 | {{ a }}\n   |    ^--\n   |\n   = reason: not found in this scope\n";

fn plain() -> Options<'static> {
    Options::default()
}

// The text of a template's error.
fn picture<T>(answer: Result<T, Error>) -> Option<String> {
    match answer {
        Err(Error::Template(text)) => Some(text),
        _ => None,
    }
}

// The text of a refusal.
fn reason<T>(answer: Result<T, Error>) -> Option<String> {
    match answer {
        Err(Error::Refused(text)) => Some(text),
        _ => None,
    }
}

#[test]
fn renders() {
    let page = render(&TEMPLATES, "page", CONTEXT, &plain());
    assert_eq!(page.as_deref(), Ok("# \"é\"\n\u{1} a < b"));
    assert_eq!(render_text("{{ text }}", CONTEXT, &plain()).as_deref(), Ok("a < b"));
    assert_eq!(render_text("", "", &plain()).as_deref(), Ok(""));
    let long = "x".repeat(100_000);
    assert_eq!(render_text(&long, "{}", &plain()), Ok(long));
}

#[test]
fn options() {
    let syntax: &[_] = &[("expr", "<?", "?>"), ("block", "<%", "%>")];
    let rows = [
        ("{{ text }}", Options { escape: Some("html"), ..plain() }, "a &lt; b"),
        ("<? text ?>{{<% if text %>!<% endif %>", Options { syntax, ..plain() }, "a < b{{!"),
        ("{{ upper(text) }}", Options { functions: true, ..plain() }, "A < B"),
    ];
    for (source, options, wanted) in rows {
        assert_eq!(render_text(source, CONTEXT, &options).as_deref(), Ok(wanted), "{options:?}");
    }
}

#[test]
fn limits() {
    let rows = [
        (Options { max_include_depth: Some(1), ..plain() }, "reached maximum include depth (1)"),
        (Options { max_steps: Some(1), ..plain() }, "reached the limit of 1 steps"),
        (Options { max_output: Some(1), ..plain() }, "reached the limit of 1 bytes"),
        (Options { max_memory: Some(1), ..plain() }, "reached the limit of 1 bytes of values"),
    ];
    let templates = [("page", "{% for x in [text, text] %}{{ x }}{% endfor %}{% include \"head\" %}"), TEMPLATES[1]];
    for (options, wanted) in rows {
        let text = picture(render(&templates, "page", CONTEXT, &options)).unwrap_or_default();
        assert!(text.trim_end().ends_with(wanted), "{options:?}: {text}");
    }
}

#[test]
fn errors() {
    let page = render(&[("page", "{{ a }}")], "page", "", &plain());
    assert_eq!(picture(page).as_deref(), Some(PICTURE));
    let refused = reason(render_text("", "{", &plain())).unwrap_or_default();
    assert!(refused.starts_with("context: "), "{refused}");
    let refused = reason(render_text("", "", &Options { escape: Some("colour"), ..plain() })).unwrap_or_default();
    assert!(refused.starts_with("options: "), "{refused}");
    assert_eq!(reason(render(&[], "page", "", &plain())).as_deref(), Some("name: no template is named \"page\""));
}

#[test]
fn other_calls() {
    assert_eq!(check(&TEMPLATES, &plain()), Ok(()));
    assert!(picture(check(&[("page", "{{")], &plain())).is_some());
    let needed = r#"{"missing":[],"names":["text","title"],"templates":["head"],"whole":false}"#;
    assert_eq!(names(&TEMPLATES, "page", &plain()).as_deref(), Ok(needed));
    // The library says the language's version, which the package's version begins with.
    assert_eq!(version().as_deref().ok(), env!("CARGO_PKG_VERSION").split('+').next());
}

#[test]
fn contexts() {
    let samples: &[_] = &[CONTEXT, r#"{"title": 1, "text": null}"#];
    assert_eq!(check_on(&TEMPLATES, &Contexts::Samples(samples), None, &plain()), Ok(()));
    let missed = picture(check_on(&TEMPLATES, &Contexts::Samples(&[r#"{"title": "a"}"#]), None, &plain())).unwrap_or_default();
    assert!(missed.ends_with("= reason: may be missing: the value is a map with title\n"), "{missed}");
    let head: Option<&[&str]> = Some(&["head"]);
    assert_eq!(check_on(&TEMPLATES, &Contexts::Samples(&[r#"{"title": "a"}"#]), head, &plain()), Ok(()));
    let refused = reason(check_on(&TEMPLATES, &Contexts::Samples(&["{}"]), Some(&["foot"]), &plain()));
    assert_eq!(refused.as_deref(), Some("options: \"pages\": no template is named \"foot\""));
    let schema = r#"{"type": "object", "properties": {"text": {"type": "string"}, "title": {}}, "required": ["text"]}"#;
    let page = [("page", "{{ text }}")];
    assert_eq!(check_on(&page, &Contexts::Schema(schema), None, &plain()), Ok(()));
    assert!(picture(check_on(&TEMPLATES, &Contexts::Schema(schema), None, &plain())).is_some());
}
