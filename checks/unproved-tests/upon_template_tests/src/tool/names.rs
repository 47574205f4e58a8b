// What is listed of what templates need, and what is said if that fails.
use crate::tool::libraries::library;
use std::alloc::{AllocError, Global};
use std::test::Fail;
use upon::Engine;
use upon_tool::names::show;
use upon_tool_messages::library::Library;

// The status, what went to standard output and what to standard error, as one text.
fn answer(
    alloc: Global,
    engine: &Engine<'_>,
    library: &Library,
    name: &str,
    as_json: bool,
) -> Result<String, AllocError> {
    let mut out = Vec::new(alloc);
    let mut err = Vec::new(alloc);
    let status = show(alloc, engine, library, name, as_json, &mut out, &mut err);
    let out = String::from_utf8_lossy(alloc, out.as_slice())?;
    let err = String::from_utf8_lossy(alloc, err.as_slice())?;
    format!(in alloc; "{status}|{out}|{err}")
}

// Of each template this is listed, as lines or as JSON.
fn all_listed(
    alloc: Global,
    files: &[(&str, &[u8])],
    rows: &[(&str, bool, &str)],
) -> Result<(), Fail> {
    let mut engine = Engine::new(alloc);
    let library = library(alloc, &mut engine, files)?;
    for (name, as_json, wanted) in rows {
        let line = answer(alloc, &engine, &library, name, *as_json)?;
        if line.as_str() != *wanted {
            return Err(Fail::new(format_args!("{line:?} in place of {wanted:?}, of {name}")));
        }
    }
    Ok(())
}

#[test]
fn lists(rt: HostRuntime) -> Result<(), Fail> {
    let page = b"{% include \"mail/head.txt\" %}{% for row in rows %}{{ row }}{% endfor %}{{ .0 }}";
    let files: [(&str, &[u8]); 4] = [
        ("page", page.as_slice()),
        ("mail/head.txt", b"{{ title }}{% include \"page\" %}"),
        ("lost", b"{% include \"no\\nne\\\\\" %}"),
        ("plain", b"x"),
    ];
    let page =
        "0|{\"missing\":[],\"names\":[\"rows\",\"title\"],\"templates\":[\"mail/head.txt\",\"page\"],\"whole\":true}\n|";
    let lost = "0|{\"missing\":[\"no\\nne\\\\\"],\"names\":[],\"templates\":[],\"whole\":false}\n|";
    all_listed(
        rt.alloc(),
        files.as_slice(),
        &[
            (
                "page",
                false,
                "0|name rows\nname title\ntemplate mail/head.txt\ntemplate page\nwhole\n|",
            ),
            ("page", true, page),
            ("lost", false, "0|missing no\\nne\\\\\n|"),
            ("lost", true, lost),
            ("plain", false, "0||"),
        ],
    )
}

#[test]
fn says_what_is_wrong(rt: HostRuntime) -> Result<(), Fail> {
    let files: [(&str, &[u8]); 3] = [
        (
            "page",
            b"{% include \"wrong\" %}{% include \"unreadable\" %}{% include \"bytes\" %}",
        ),
        ("wrong", b"{{"),
        ("bytes", b"\xff"),
    ];
    let wanted =
        "1||upon-tool: bytes is not UTF-8\nupon-tool: cannot read unreadable: entity not found\ninvalid syntax\n\n  --> wrong:1:3\n   |\n 1 | {{\n   |   ^--\n   |\n   = reason: expected token, found EOF\n";
    all_listed(
        rt.alloc(),
        files.as_slice(),
        &[
            ("page", false, wanted),
            ("page", true, wanted),
            ("absent", false, "2||upon-tool: cannot read absent: entity not found\n"),
        ],
    )
}
