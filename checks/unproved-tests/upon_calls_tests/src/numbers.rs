// Calls with 1, 17, 101, 1,001 and 10,001 of what they may have many of: templates, includes, parts of a text, items and keys
// of a context, samples, pages on contexts, keywords, names.
use std::alloc::{AllocError, Global};
use std::process::Abort;
use std::test::Fail;
use upon_calls::check::check;
use upon_calls::failure::Failure;
use upon_calls::names::names;
use upon_calls::render::{render, render_text};

const COUNTS: [u32; 4] = [1, 17, 101, 1_001];

// So many of what costs little.
const MOST: [u32; 5] = [1, 17, 101, 1_001, 10_001]; // ./test: [1, 17, 101, 1_001, 1_002]

// How many places a check shows at most.
const SHOWN: usize = 100;

// A text, then so many parts with the number of each after a word, and a text.
fn numbered(
    alloc: Global,
    before: &str,
    count: u32,
    part: (&str, &str),
    after: &str,
) -> Result<String, AllocError> {
    let (word, rest) = part;
    let mut text = String::from_str(alloc, before)?;
    for i in 0..count {
        let comma = if i == 0 { "" } else { ", " };
        text.push_str(format!(in alloc; "{comma}{word}{i}{rest}")?.as_str())?;
    }
    text.push_str(after)?;
    Ok(text)
}

// The call is refused with the picture of a syntax error.
fn is_broken(rt: &impl Abort, given: Result<String, Failure>, count: u32) {
    let is_picture = match &given {
        Err(Failure::Faults(text)) => text.as_str().starts_with("invalid syntax\n\n  --> b"),
        _ => false,
    };
    assert!(rt; is_picture, "{count} broken templates");
}

#[test]
fn broken_templates_beside_a_page(rt: HostRuntime) -> Result<(), Fail> {
    let alloc = rt.alloc();
    for count in COUNTS {
        let part = ("\"b", "\": \"x{{\"");
        let templates = numbered(alloc, "{\"page\": \"ok\", ", count, part, "}")?;
        is_broken(&rt, render(alloc, templates.as_bytes(), b"", b"page", b""), count);
        is_broken(&rt, names(alloc, templates.as_bytes(), b"page", b""), count);
    }
    Ok(())
}

#[test]
fn pages_that_may_fail(rt: HostRuntime) -> Result<(), Fail> {
    let alloc = rt.alloc();
    for count in COUNTS {
        let templates = numbered(alloc, "{", count, ("\"p", "\": \"{{ missing }}\""), "}")?;
        let given = check(alloc, templates.as_bytes(), b"{\"samples\": [{}]}");
        let Err(Failure::Faults(pictures)) = given else {
            return Err(Fail::new("a fault is missing"));
        };
        let shown = pictures.as_str().matches("may be missing").count();
        assert!(&rt; shown == SHOWN.min(count as usize), "{shown} places of {count}");
        let places = pictures.as_str().matches("  --> p").count();
        assert!(&rt; places == shown, "{places} pages of {count}");
    }
    Ok(())
}

#[test]
fn keys_of_a_schema(rt: HostRuntime) -> Result<(), Fail> {
    let alloc = rt.alloc();
    for count in COUNTS {
        let part = ("\"k", "\": {\"type\": \"string\"}");
        let before = "{\"schema\": {\"type\": \"object\", \"required\": [\"k0\"], \"properties\": {";
        let options = numbered(alloc, before, count, part, "}}}")?;
        let given = check(alloc, b"{\"page\": \"{{ k0 }}\"}", options.as_bytes());
        let is_right = matches!(given, Ok(text) if text.is_empty());
        assert!(&rt; is_right, "a schema of {count} keys");
    }
    Ok(())
}

#[test]
fn names_that_a_page_reads(rt: HostRuntime) -> Result<(), Fail> {
    let alloc = rt.alloc();
    for count in COUNTS {
        let templates = numbered(alloc, "{\"page\": \"{{ [", count, ("n", ""), "] }}\"}")?;
        let text = match names(alloc, templates.as_bytes(), b"page", b"") {
            Ok(text) => text,
            Err(_) => return Err(Fail::new("the names are refused")),
        };
        let listed = text.as_str().matches("\"n").count();
        // The word `names` begins so too.
        assert!(&rt; listed == count as usize + 1, "{listed} names of {count}");
    }
    Ok(())
}

// The text of a call.
fn text_of(given: Result<String, Failure>) -> Result<String, Fail> {
    match given {
        Ok(text) => Ok(text),
        Err(_) => Err(Fail::new("a call has no text")),
    }
}

// The call has this text.
fn is_text(rt: &impl Abort, given: Result<String, Failure>, wanted: &str, what: &str) {
    let has_text = matches!(&given, Ok(text) if text.as_str() == wanted);
    assert!(rt; has_text, "{what}");
}

#[test]
fn parts_of_a_text(rt: HostRuntime) -> Result<(), Fail> {
    let alloc = rt.alloc();
    for count in MOST {
        let wanted = numbered(alloc, "", count, ("x", ""), "")?;
        let source = numbered(alloc, "", count, ("{{ \"x", "\" }}"), "")?;
        let given = render_text(alloc, source.as_bytes(), b"", b"");
        is_text(&rt, given, wanted.as_str(), "literals in a row");
    }
    Ok(())
}

#[test]
fn items_and_keys(rt: HostRuntime) -> Result<(), Fail> {
    let alloc = rt.alloc();
    let rows = b"{% for x in rows %}{{ x }}{% if not loop.last %}, {% endif %}{% endfor %}";
    for count in MOST {
        let wanted = numbered(alloc, "", count, ("", ""), "")?;
        let items = numbered(alloc, "{\"rows\": [", count, ("", ""), "]}")?;
        is_text(&rt, render_text(alloc, rows, items.as_bytes(), b""), wanted.as_str(), "items");
        let ones = numbered(alloc, "", count, ("1{#", "#}"), "")?;
        let ones = text_of(render_text(alloc, ones.as_bytes(), b"", b""))?;
        let keys = numbered(alloc, "{", count, ("\"k", "\": 1"), "}")?;
        let source = numbered(alloc, "", count, ("{{ k", " }}"), "")?;
        let given = render_text(alloc, source.as_bytes(), keys.as_bytes(), b"");
        is_text(&rt, given, ones.as_str(), "keys");
    }
    Ok(())
}

#[test]
fn templates_that_a_page_includes(rt: HostRuntime) -> Result<(), Fail> {
    let alloc = rt.alloc();
    for count in COUNTS {
        let page = numbered(alloc, "", count, ("{% include \\\"p", "\\\" %}"), "")?;
        let page = format!(in alloc; "\"page\": \"{page}\"")?;
        let parts = numbered(alloc, "", count, ("\"p", "\": \"{# #}\""), "")?;
        let empty = format!(in alloc; "{{{page}, {parts}}}")?;
        let given = text_of(render(alloc, empty.as_bytes(), b"", b"page", b""))?;
        let commas = given.as_str().matches(", ").count() + 1;
        assert_eq!(&rt; commas, count as usize);
        is_text(&rt, check(alloc, empty.as_bytes(), b""), "", "includes that are there");
        let listed = text_of(names(alloc, empty.as_bytes(), b"page", b""))?;
        assert_eq!(&rt; listed.as_str().matches("\"p").count(), count as usize);
        let alone = format!(in alloc; "{{{page}}}")?;
        let Err(Failure::Faults(pictures)) = check(alloc, alone.as_bytes(), b"") else {
            return Err(Fail::new("a fault is missing"));
        };
        let shown = pictures.as_str().matches("unknown template").count();
        assert_eq!(&rt; shown, SHOWN.min(count as usize));
    }
    Ok(())
}

#[test]
fn samples(rt: HostRuntime) -> Result<(), Fail> {
    let alloc = rt.alloc();
    for count in MOST {
        let samples = numbered(alloc, "{\"samples\": [", count, ("{\"n\": \"", "\"}"), "")?;
        let right = format!(in alloc; "{samples}]}}")?;
        let given = check(alloc, b"{\"page\": \"{{ n }}\"}", right.as_bytes());
        is_text(&rt, given, "", "samples");
        let lacking = format!(in alloc; "{samples}, {{}}]}}")?;
        let given = check(alloc, b"{\"page\": \"{{ n }}\"}", lacking.as_bytes());
        assert!(&rt; matches!(given, Err(Failure::Faults(_))), "{count} samples and one that lacks it");
    }
    Ok(())
}
