// Brackets and blocks that are nested deep, and filters and branches in long rows. Reading them takes no call stack.
use std::alloc::{AllocError, Global};
use std::process::Abort;
use std::test::Fail;
use upon_syntax::compile::parse::Parser;
use upon_syntax::compile::search::Searcher;

/// A text before the begins, a begin, the text in the middle, an end, and the text after the ends; how many instructions
/// there are for each begin, and how many more.
type Nest = (
    &'static str,
    &'static str,
    &'static str,
    &'static str,
    &'static str,
    usize,
    usize,
);

// `check-program` has 1,000,000 of each.
const DEPTH: usize = 4_000; // ./test: 400

const BRACKETS: &[Nest] = &[
    ("{{ ", "(", "a", ")", " }}", 0, 2),
    ("{{ ", "[", "a", "]", " }}", 2, 2),
    ("{{ ", "[b, ", "a", ",]", " }}", 4, 2),
    ("{{ ", "{\"k\": ", "a", "} ", " }}", 2, 2),
    ("{{ ", "f(", "a", ")", " }}", 1, 1),
    ("{{ ", "f(b, ", "a", ", c)", " }}", 3, 1),
    ("{{ ", "(b | f: ", "a", ")", " }}", 2, 1),
    ("{{ ", "(", "a", " | f)", " }}", 1, 1),
    ("{% if ", "[", "a", "]", " %}{% endif %}", 2, 2),
    ("{% for x in ", "[", "a", "]", " %}{% endfor %}", 2, 4),
    ("{% with ", "[", "a", "]", " as x %}{% endwith %}", 2, 3),
    ("{% include \"t\" with ", "[", "a", "]", " %}", 2, 2),
];

const BLOCKS: &[Nest] = &[
    ("", "{% if a %}", "", "{% endif %}", "", 2, 0),
    ("", "{% if not a %}{% else %}", "", "{% endif %}", "", 3, 0),
    ("", "{% for x in a %}", "", "{% endfor %}", "", 4, 0),
    (
        "",
        "{% for x in a %}{% else %}",
        "",
        "{% endfor %}",
        "",
        4,
        0,
    ),
    ("", "{% with a as b %}", "", "{% endwith %}", "", 3, 0),
];

const ROWS: &[Nest] = &[
    ("{{ a", " | f", "", "", " }}", 1, 1),
    ("{{ a", " | f: b", "", "", " }}", 2, 1),
    ("{{ [", "a, ", "", "", "] }}", 2, 2),
    ("{{ f(a", ", a", "", "", ") }}", 1, 2),
    ("{% if a %}", "{% else if a %}", "", "", "{% endif %}", 3, 2),
];

fn add_copies(text: &mut String, count: usize, part: &str) -> Result<(), AllocError> {
    for _ in 0..count {
        text.push_str(part)?;
    }
    Ok(())
}

// The text up to the last end that is there.
fn nested(alloc: Global, nest: &Nest, ends: usize) -> Result<String, AllocError> {
    let (before, begin, middle, end, _, _, _) = nest;
    let mut text = String::from_str(alloc, before)?;
    add_copies(&mut text, DEPTH, begin)?;
    text.push_str(middle)?;
    add_copies(&mut text, ends, end)?;
    Ok(text)
}

// Each has its instructions, and a tree of one statement.
fn all_compiled(rt: &impl Abort, alloc: Global, nests: &[Nest]) -> Result<(), Fail> {
    let searcher = Searcher::new();
    for nest in nests {
        let (_, begin, _, _, after, each, more) = nest;
        let mut source = nested(alloc, nest, DEPTH)?;
        source.push_str(after)?;
        let code = Parser::new(alloc, &searcher, source.as_str()).compile_template()?;
        assert_eq!(rt; code.len(), DEPTH * *each + *more, "of {begin}");
        let tree = Parser::new(alloc, &searcher, source.as_str()).parse_template()?;
        assert_eq!(rt; tree.scope.stmts.len(), 1, "of {begin}");
    }
    Ok(())
}

// Each is refused where an end is not there.
fn all_refused(rt: &impl Abort, alloc: Global, nests: &[Nest]) -> Result<(), Fail> {
    let searcher = Searcher::new();
    for nest in nests {
        let mut source = nested(alloc, nest, DEPTH - 1)?;
        source.push_str(nest.4)?;
        let begin = nest.1;
        let parser = Parser::new(alloc, &searcher, source.as_str());
        let error = parser.compile_template().err().ok_or("instructions")?;
        assert!(rt; error.reason().is_some(), "of {begin}");
        let parser = Parser::new(alloc, &searcher, source.as_str());
        let same = parser.parse_template().err().ok_or("a tree")?;
        assert_eq!(rt; same.reason(), error.reason(), "of {begin}");
    }
    Ok(())
}

#[test]
fn brackets_in_brackets(rt: HostRuntime) -> Result<(), Fail> {
    all_compiled(&rt, rt.alloc(), BRACKETS)
}

#[test]
fn open_brackets_in_brackets(rt: HostRuntime) -> Result<(), Fail> {
    all_refused(&rt, rt.alloc(), BRACKETS)
}

#[test]
fn blocks_in_blocks(rt: HostRuntime) -> Result<(), Fail> {
    all_compiled(&rt, rt.alloc(), BLOCKS)
}

#[test]
fn open_blocks_in_blocks(rt: HostRuntime) -> Result<(), Fail> {
    all_refused(&rt, rt.alloc(), BLOCKS)
}

#[test]
fn filters_and_branches_in_rows(rt: HostRuntime) -> Result<(), Fail> {
    all_compiled(&rt, rt.alloc(), ROWS)
}
