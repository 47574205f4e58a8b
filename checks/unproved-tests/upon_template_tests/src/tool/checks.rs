// What is said of templates that are checked.
use crate::tool::libraries::library;
use std::alloc::{AllocError, Global};
use std::borrow::CowStr;
use std::test::Fail;
use upon::Engine;
use upon_std::table::ALL;
use upon_tool_pages::check::{check_file, check_text};
use upon_tool_messages::judge::Declared;
use upon_tool_messages::library::Library;

// The places and the files that are said to be wrong, in their order.
fn places(alloc: Global, said: &str) -> Result<String, AllocError> {
    let mut places = String::new(alloc);
    for line in said.lines() {
        if line.starts_with("  --> ") || line.starts_with("upon-tool: ") {
            places.push_str(line)?;
            places.push_str(";")?;
        }
    }
    Ok(places)
}

/// Returns the standard functions, and no others, as what templates may call.
pub fn all_known() -> Declared<'static> {
    Declared {
        functions: ALL.as_slice(),
        has_verbatim: false,
        others: [].as_slice(),
    }
}

// What is said of a text, or `right`.
fn said_of_text(
    alloc: Global,
    engine: &Engine<'_>,
    library: &Library,
    source: &str,
) -> Result<String, AllocError> {
    let mut err = Vec::new(alloc);
    let source = CowStr::Borrowed(source);
    if check_text(alloc, engine, library, "own", source, &all_known(), &mut err)? {
        return String::from_str(alloc, "right");
    }
    places(alloc, String::from_utf8_lossy(alloc, err.as_slice())?.as_str())
}

// What is said of a file, or `right`.
fn said_of_file(
    alloc: Global,
    engine: &Engine<'_>,
    library: &Library,
    name: &str,
) -> Result<String, AllocError> {
    let mut err = Vec::new(alloc);
    if check_file(alloc, engine, library, name, &all_known(), &mut err)? {
        return String::from_str(alloc, "right");
    }
    places(alloc, String::from_utf8_lossy(alloc, err.as_slice())?.as_str())
}

#[test]
fn texts(rt: HostRuntime) -> Result<(), Fail> {
    let alloc = rt.alloc();
    let files: [(&str, &[u8]); 1] = [("a", b"x")];
    let mut engine = Engine::new(alloc);
    let library = library(alloc, &mut engine, files.as_slice())?;
    for (source, wanted) in [
        ("{% include \"a\" %}{% include \"own\" %}", "right"),
        (
            "{% if x %}{% include \"c\" %}{% endif %}",
            "  --> own:1:22;",
        ),
        (
            "{% include \"a\" %}\n{% include \"b\" with x %}",
            "  --> own:2:12;",
        ),
        (
            "{% include \"b\" %}{% include \"own\" %}\n{% include \"c\" %}{% include \"b\" %}",
            "  --> own:1:12;upon-tool: own includes it 2 times;  --> own:2:12;",
        ),
        ("{{", "  --> own:1:3;"),
    ] {
        let said = said_of_text(alloc, &engine, &library, source)?;
        assert_eq!(&rt; said.as_str(), wanted, "of {source}");
    }
    Ok(())
}

#[test]
fn files(rt: HostRuntime) -> Result<(), Fail> {
    let alloc = rt.alloc();
    let files: [(&str, &[u8]); 3] = [
        ("a", b"{% include \"b\" %}"),
        ("b", b"\xff"),
        ("c", b"{% include \"a\" %}{% include \"d\" %}"),
    ];
    let mut engine = Engine::new(alloc);
    let library = library(alloc, &mut engine, files.as_slice())?;
    for (name, wanted) in [
        ("a", "  --> a:1:12;"),
        ("b", "upon-tool: b is not UTF-8;"),
        ("c", "  --> c:1:29;"),
        ("unreadable", "upon-tool: cannot read unreadable: entity not found;"),
    ] {
        let said = said_of_file(alloc, &engine, &library, name)?;
        assert_eq!(&rt; said.as_str(), wanted, "of {name}");
    }
    Ok(())
}
