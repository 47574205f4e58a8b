// Which calls of a text are said to fail on any values, and how `check` says it.
use crate::tool::checks::all_known;
use crate::tool::libraries::library;
use std::alloc::{AllocError, Global};
use std::borrow::CowStr;
use std::test::Fail;
use upon::Engine;
use upon_std::table::ALL;
use upon_tool_pages::check::check_text;
use upon_tool_messages::judge::Declared;

// What is said of the calls of a text, by their places and reasons.
fn said(alloc: Global, source: &str, callables: Declared<'_>) -> Result<String, AllocError> {
    let mut engine = Engine::new(alloc);
    let library = library(alloc, &mut engine, [].as_slice())?;
    let mut err = Vec::new(alloc);
    let source = CowStr::Borrowed(source);
    let is_right = check_text(alloc, &engine, &library, "page", source, &callables, &mut err)?;
    let mut said = String::new(alloc);
    for line in String::from_utf8_lossy(alloc, err.as_slice())?.as_str().lines() {
        for mark in ["  --> page:", "   = reason: "] {
            if let Some(rest) = line.strip_prefix(mark) {
                said.push_str(rest)?;
                said.push(' ')?;
            }
        }
    }
    if is_right != said.is_empty() {
        said.push_str("and not so")?;
    }
    Ok(said)
}

// The rows of which the calls are not said to be wrong as they should be: a text, and what is said.
fn wrong_rows(
    alloc: Global,
    rows: &[(&str, &str)],
    callables: Declared<'_>,
) -> Result<String, AllocError> {
    let mut wrong = String::new(alloc);
    for (source, wanted) in rows {
        let said = said(alloc, source, callables)?;
        if said.as_str().trim_end() != *wanted {
            wrong.push_str(source)?;
            wrong.push_str(": ")?;
            wrong.push_str(said.as_str())?;
            wrong.push('\n')?;
        }
    }
    Ok(wrong)
}

#[test]
fn with_standard_functions(rt: HostRuntime) -> Result<(), Fail> {
    let callables = Declared {
        functions: ALL.as_slice(),
        has_verbatim: true,
        others: ["own"].as_slice(),
    };
    let wrong = wrong_rows(
        rt.alloc(),
        &[
            ("{{ a }}{{ a.upper }}", ""),
            ("{{ a | upper }}{{ upper(a) }}", ""),
            ("{{ a | uper }}", "1:8 unknown function"),
            ("{{ uper(a) }}", "1:4 unknown function"),
            ("{{ upper() }}", "1:4 function expects 1 arguments, 0 provided"),
            ("{{ a | upper: 1, 2 }}", "1:8 function expects 1 arguments, 3 provided"),
            ("{{ join(a) }}", "1:4 function expects 2 arguments, 1 provided"),
            ("{{ a | join: \", \" }}", ""),
            ("{{ [1, 2, [3, 4]] | join: \", \" | upper }}", ""),
            ("{{ {\"a\": 1, \"b\": [2, 3]} | json }}", ""),
            ("{{ join([1, 2], (b | lower)) }}", ""),
            ("{{ join((a | split: \",\"), upper(b)) }}", ""),
            ("{{ join((a | split), upper(b)) }}", "1:14 function expects 2 arguments, 1 provided"),
            ("{% if a | uper %}x{% else if low(b) %}y{% endif %}", "1:11 unknown function 1:30 unknown function"),
            ("{% for x in a | srt %}{{ x | upper }}{% endfor %}", "1:17 unknown function"),
            ("{% with a | join: \",\" as b %}{{ b }}{% endwith %}", ""),
            ("{% with a | join as b %}{{ b }}{% endwith %}", "1:13 function expects 2 arguments, 1 provided"),
            ("{{ [true, false] | join: true }}", ""),
            ("{{ a?.b | join: c.0.d }}", ""),
            ("{{ -1 | add: +2 }}", ""),
            ("a | uper {# b | uper #} {{ \"c | uper(\" }}", ""),
            ("{{ a | verbatim }}{{ own() }}{{ a | own: 1, 2, 3 }}", ""),
            ("{{ a | verbatim: 1 }}", "1:8 formatter expects 1 argument, 2 provided"),
            ("{{ f(g(a), h()) }}", "1:6 unknown function 1:12 unknown function 1:4 unknown function"),
            ("{{ a }}\n{{ b\n| uper }}", "3:3 unknown function"),
        ],
        callables,
    )?;
    assert_eq!(&rt; wrong.as_str(), "");
    Ok(())
}

#[test]
fn without_functions(rt: HostRuntime) -> Result<(), Fail> {
    let alloc = rt.alloc();
    let callables = Declared {
        functions: [].as_slice(),
        has_verbatim: false,
        others: [].as_slice(),
    };
    let rows = [("{{ a | upper }}", "1:8 unknown function"), ("{{ a | verbatim }}", "1:8 unknown function"), ("{{ a }}", "")];
    let wrong = wrong_rows(alloc, rows.as_slice(), callables)?;
    assert_eq!(&rt; wrong.as_str(), "");
    Ok(())
}

// The first hundred have pictures, the others a line each.
#[test]
fn many(rt: HostRuntime) -> Result<(), Fail> {
    let alloc = rt.alloc();
    let mut engine = Engine::new(alloc);
    let library = library(alloc, &mut engine, [].as_slice())?;
    let mut source = String::new(alloc);
    for _ in 0..103 {
        source.push_str("{{ f() }}")?;
    }
    let mut err = Vec::new(alloc);
    let source = CowStr::Borrowed(source.as_str());
    let is_right = check_text(alloc, &engine, &library, "page", source, &all_known(), &mut err)?;
    let said = String::from_utf8_lossy(alloc, err.as_slice())?;
    let mut pictures = 0usize;
    let mut lines = 0usize;
    for line in said.as_str().lines() {
        if line.starts_with("  --> ") {
            pictures += 1;
        }
        if line == "upon-tool: page: f: unknown function" {
            lines += 1;
        }
    }
    assert!(&rt; !is_right, "the calls are wrong");
    assert_eq!(&rt; pictures, 100);
    assert_eq!(&rt; lines, 3);
    Ok(())
}
