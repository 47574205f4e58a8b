// Each call, option and refusal, with the status and the text that the rules give.
use std::alloc::{AllocError, Global};
use std::process::Abort;
use std::test::Fail;
use upon_calls::check::check;
use upon_calls::failure::Failure;
use upon_calls::names::names;
use upon_calls::render::{render, render_text};
use upon_calls::version::version;

// The status and the text of what a call gave.
fn told(alloc: Global, given: Result<String, Failure>) -> Result<(u8, String), AllocError> {
    match given {
        Ok(text) => Ok((0, text)),
        Err(failure) => {
            let status = failure.status();
            Ok((status, failure.into_text(alloc)?))
        }
    }
}

// A call gives this.
fn gives(
    rt: &impl Abort,
    alloc: Global,
    given: Result<String, Failure>,
    wanted: (u8, &str),
) -> Result<(), Fail> {
    let (status, text) = told(alloc, given)?;
    let (wanted_status, wanted_text) = wanted;
    assert!(rt; status == wanted_status, "{status} {text} for {wanted_text}");
    assert!(rt; text.as_str() == wanted_text, "{text} for {wanted_text}");
    Ok(())
}

// A call gives this status, and a text with this beginning.
fn begins(
    rt: &impl Abort,
    alloc: Global,
    given: Result<String, Failure>,
    wanted: (u8, &str),
) -> Result<(), Fail> {
    let (status, text) = told(alloc, given)?;
    let (wanted_status, begin) = wanted;
    assert!(rt; status == wanted_status, "{status} {text} for {begin}");
    assert!(rt; text.starts_with(begin), "{text} for {begin}");
    Ok(())
}

#[test]
fn texts_on_contexts(rt: HostRuntime) -> Result<(), Fail> {
    let alloc = rt.alloc();
    let rows = [
        ("Hello {{ name }}!", "{\"name\": \"John\"}", "Hello John!"),
        ("", "", ""),
        ("x", "", "x"),
        ("{% for i in items %}{{ i }},{% endfor %}", "[1, 2, 3]", "1,2,3,"),
        ("{{ a }}", "{\"a\": 1, \"a\": 2}", "2"),
        ("{{ a.b.1 }}", "{\"a\": {\"b\": [true, 1.50]}}", "1.50"),
        ("é{{ k }}", "\u{feff}{\"k\": \"ü\"}", "éü"),
    ];
    for (source, context, wanted) in rows {
        let given = render_text(alloc, source.as_bytes(), context.as_bytes(), b"");
        gives(&rt, alloc, given, (0, wanted))?;
    }
    Ok(())
}

#[test]
fn templates_by_name(rt: HostRuntime) -> Result<(), Fail> {
    let alloc = rt.alloc();
    let templates = "{\"page\": \"<{% include \\\"part\\\" %}>\", \"part\": \"{{ x }}\", \"\": \"empty\"}";
    let rows = [
        ("page", "{\"x\": 1}", "<1>"),
        ("part", "{\"x\": \"&\"}", "&"),
        ("", "{}", "empty"),
    ];
    for (name, context, wanted) in rows {
        let given = render(
            alloc,
            templates.as_bytes(),
            context.as_bytes(),
            name.as_bytes(),
            b"{}",
        );
        gives(&rt, alloc, given, (0, wanted))?;
    }
    Ok(())
}

#[test]
fn options(rt: HostRuntime) -> Result<(), Fail> {
    let alloc = rt.alloc();
    let context = "{\"t\": \"<a's\\n\"}";
    let rows = [
        ("{{ t }}", "{}", "<a's\n"),
        ("{{ t }}", "{\"html\": true}", "&lt;a&#39;s\n"),
        ("{{ t }}", "{\"html\": false}", "<a's\n"),
        ("{{ t | verbatim }}", "{\"html\": true}", "<a's\n"),
        ("{{ t }}", "{\"escape\": \"html\"}", "&lt;a&#39;s\n"),
        ("{{ t }}", "{\"escape\": \"html\", \"html\": true}", "&lt;a&#39;s\n"),
        ("{{ t }}", "{\"escape\": \"json\", \"html\": false}", "<a's\\n"),
        ("{{ t }}", "{\"escape\": \"shell\"}", "'<a'\\''s\n'"),
        ("{{ t }}", "{\"escape\": \"yaml\"}", "<a's\\n"),
        ("{{ upper(t) }}", "{\"functions\": true}", "<A'S\n"),
        ("<? t ?>{{ t }}", "{\"syntax\": [[\"expr\", \"<?\", \"?>\"]]}", "<a's\n{{ t }}"),
        (
            "[t]<if true>x<endif>/* no */",
            "{\"syntax\": [[\"expr\", \"[\", \"]\"], [\"block\", \"<\", \">\"], [\"comment\", \"/*\", \"*/\"]]}",
            "<a's\nx",
        ),
        ("[t]", "{\"syntax\": [[\"expr\", \"<\", \">\"], [\"expr\", \"[\", \"]\"]]}", "<a's\n"),
        ("x", "{\"max_include_depth\": 0}", "x"),
        ("123", "{\"max_output\": 3, \"max_steps\": 1000, \"max_memory\": 0}", "123"),
    ];
    for (source, options, wanted) in rows {
        let given = render_text(
            alloc,
            source.as_bytes(),
            context.as_bytes(),
            options.as_bytes(),
        );
        gives(&rt, alloc, given, (0, wanted))?;
    }
    Ok(())
}

#[test]
fn refused_options(rt: HostRuntime) -> Result<(), Fail> {
    let alloc = rt.alloc();
    let rows = [
        ("{\"colour\": 1}", "options: unknown key \"colour\""),
        ("[]", "options: unknown key \"items\""),
        ("1", "options: neither an object nor a list"),
        ("{", "options: "),
        ("{\"html\": 1}", "options: \"html\" wants true or false"),
        ("{\"functions\": null}", "options: \"functions\" wants true or false"),
        ("{\"max_steps\": -1}", "options: \"max_steps\" wants an integer from 0 on"),
        ("{\"max_steps\": 1.0}", "options: \"max_steps\" wants an integer from 0 on"),
        ("{\"max_output\": \"1\"}", "options: \"max_output\" wants"),
        ("{\"max_memory\": []}", "options: \"max_memory\" wants"),
        ("{\"max_include_depth\": true}", "options: \"max_include_depth\" wants"),
        ("{\"escape\": \"latex\"}", "options: \"escape\" wants"),
        ("{\"escape\": 1}", "options: \"escape\" wants"),
        ("{\"escape\": \"yaml\", \"html\": true}", "options: \"escape\" wants"),
        ("{\"syntax\": {}}", "options: \"syntax\" wants"),
        ("{\"syntax\": []}", "options: \"syntax\" wants"),
        ("{\"syntax\": [[\"block\", \"<\", \">\"]]}", "options: \"syntax\" wants"),
        ("{\"syntax\": [[\"expr\", \"<\"]]}", "options: \"syntax\" wants"),
        ("{\"syntax\": [[\"expr\", \"\", \">\"]]}", "options: \"syntax\" wants"),
        ("{\"syntax\": [[\"expr\", \"<\", \"\"]]}", "options: \"syntax\" wants"),
        ("{\"syntax\": [[\"expr\", \"<\", 1]]}", "options: \"syntax\" wants"),
        ("{\"syntax\": [[\"tag\", \"<\", \">\"], [\"expr\", \"<\", \">\"]]}", "options: \"syntax\" wants"),
    ];
    for (options, wanted) in rows {
        let given = render_text(alloc, b"x", b"", options.as_bytes());
        begins(&rt, alloc, given, (2, wanted))?;
        let given = render(alloc, b"{\"a\": \"x\"}", b"", b"a", options.as_bytes());
        begins(&rt, alloc, given, (2, wanted))?;
        let given = check(alloc, b"{\"a\": \"x\"}", options.as_bytes());
        begins(&rt, alloc, given, (2, wanted))?;
        let given = names(alloc, b"{\"a\": \"x\"}", b"a", options.as_bytes());
        begins(&rt, alloc, given, (2, wanted))?;
    }
    Ok(())
}

#[test]
fn refused_arguments(rt: HostRuntime) -> Result<(), Fail> {
    let alloc = rt.alloc();
    let rows: [(&[u8], &[u8], &[u8], &[u8], u8, &str); 13] = [
        (b"[\"x\"]", b"", b"a", b"", 2, "templates: \"items\" wants a text"),
        (b"{\"a\": 1}", b"", b"a", b"", 2, "templates: \"a\" wants a text"),
        (b"7", b"", b"a", b"", 2, "templates: neither an object nor a list"),
        (b"{\"a\": \"x\"", b"", b"a", b"", 2, "templates: EOF while parsing"),
        (b"{\"a\": \"x\"}", b"", b"b", b"", 2, "name: no template is named \"b\""),
        (b"", b"", b"", b"", 2, "name: no template is named \"\""),
        (b"{\"a\": \"x\"}", b"3", b"a", b"", 2, "context: neither an object nor a list"),
        (b"{\"a\": \"x\"}", b"{\n\"k\" 1}", b"a", b"", 2, "context: invalid JSON at line 2 column 5"),
        (b"\xff", b"\xff", b"\xff", b"\xff", 3, "templates is not UTF-8"),
        (b"", b"\xff", b"\xff", b"\xff", 3, "context is not UTF-8"),
        (b"", b"", b"\xff", b"\xff", 3, "name is not UTF-8"),
        (b"", b"", b"", b"\xff", 3, "options is not UTF-8"),
        (b"", b"", b"\xed\xa0\x80", b"", 3, "name is not UTF-8"),
    ];
    for (templates, context, name, options, status, wanted) in rows {
        let given = render(alloc, templates, context, name, options);
        begins(&rt, alloc, given, (status, wanted))?;
    }
    gives(
        &rt,
        alloc,
        render_text(alloc, b"\x80", b"", b""),
        (3, "source is not UTF-8"),
    )
}

#[test]
fn faults(rt: HostRuntime) -> Result<(), Fail> {
    let alloc = rt.alloc();
    let picture = "invalid syntax\n\n  --> a:1:4\n   |\n 1 | {{ % }}\n   |    ^--\n   |\n   = reason: unexpected character\n";
    let given = render(alloc, b"{\"a\": \"{{ % }}\", \"b\": \"x\"}", b"", b"b", b"");
    gives(&rt, alloc, given, (1, picture))?;
    let given = render(alloc, b"{\"a\": \"{{ x }}\"}", b"", b"a", b"");
    begins(&rt, alloc, given, (1, "render error\n\n  --> a:1:4\n"))?;
    let given = render_text(alloc, b"{{ x }}", b"", b"");
    begins(&rt, alloc, given, (1, "render error\n\n  --> <anonymous>:1:4\n"))?;
    let given = render_text(alloc, b"{{ % }}", b"", b"");
    begins(&rt, alloc, given, (1, "invalid syntax\n\n  --> <anonymous>:1:4\n"))?;
    for options in [
        "{\"max_output\": 2}",
        "{\"max_steps\": 0}",
        "{\"max_memory\": 1}",
    ] {
        let source = b"{% for x in [1, 2] %}{{ x }}{{ x }}{% endfor %}";
        let given = render_text(alloc, source, b"", options.as_bytes());
        begins(&rt, alloc, given, (1, "render error"))?;
    }
    let deep = b"{\"a\": \"{% include \\\"a\\\" %}\"}";
    for options in ["", "{\"max_include_depth\": 3}"] {
        let given = render(alloc, deep, b"", b"a", options.as_bytes());
        begins(&rt, alloc, given, (1, "render error"))?;
    }
    Ok(())
}

#[test]
fn checks(rt: HostRuntime) -> Result<(), Fail> {
    let alloc = rt.alloc();
    for templates in [
        "",
        "{}",
        "{\"a\": \"{% include \\\"b\\\" %}\", \"b\": \"{{ x }}\"}",
        "{\"a\": \"{% include \\\"a\\\" %}\"}",
    ] {
        gives(&rt, alloc, check(alloc, templates.as_bytes(), b""), (0, ""))?;
    }
    let first = "invalid syntax\n\n  --> a:1:4\n   |\n 1 | {{ % }}\n   |    ^--\n   |\n   = reason: unexpected character\n";
    let second = "render error\n\n  --> b:1:12\n   |\n 1 | {% include \"c\\n\" %}{% include \"c\\n\" %}\n   |            ^^^^^\n   |\n   = reason: unknown template\n";
    let both = format!(in alloc; "{first}\n{second}")?;
    let templates = "{\"a\": \"{{ % }}\", \"b\": \"{% include \\\"c\\\\n\\\" %}{% include \\\"c\\\\n\\\" %}\"}";
    let given = check(alloc, templates.as_bytes(), b"");
    begins(&rt, alloc, given, (1, both.as_str()))?;
    let given = check(
        alloc,
        b"{\"a\": \"(% include \\\"x\\\" %)\"}",
        b"{\"syntax\": [[\"expr\", \"((\", \"))\"], [\"block\", \"(%\", \"%)\"]]}",
    );
    begins(&rt, alloc, given, (1, "render error\n\n  --> a:1:12\n"))
}

#[test]
fn needs(rt: HostRuntime) -> Result<(), Fail> {
    let alloc = rt.alloc();
    let templates = "{\"a\": \"{{ x }}{% include \\\"b\\\" %}{% include \\\"c\\\" %}\", \"b\": \"{{ y.z }}\"}";
    let wanted = "{\"missing\":[\"c\"],\"names\":[\"x\",\"y\"],\"templates\":[\"b\"],\"whole\":false}";
    let given = names(alloc, templates.as_bytes(), b"a", b"");
    gives(&rt, alloc, given, (0, wanted))?;
    let given = names(alloc, templates.as_bytes(), b"d", b"");
    gives(&rt, alloc, given, (2, "name: no template is named \"d\""))?;
    let given = names(alloc, b"{\"a\": \"{{ % }}\"}", b"a", b"");
    begins(&rt, alloc, given, (1, "invalid syntax"))?;
    assert!(&rt; version() == "0.11.0", "the version");
    Ok(())
}
