// Texts with their trees: each node with the part of the text that it spans.
use crate::syntax::trees::picture::picture;
use std::alloc::Global;
use std::process::Abort;
use std::test::Fail;
use upon_syntax::compile::parse::Parser;
use upon_syntax::compile::search::Searcher;

pub mod expressions;
pub mod picture;
pub mod statements;

/// A text and the picture of its tree.
pub type Tree = (&'static str, &'static str);

// The text has this tree.
fn accepted(rt: &impl Abort, alloc: Global, searcher: &Searcher, row: &Tree) -> Result<(), Fail> {
    let (source, wanted) = *row;
    let tree = Parser::new(alloc, searcher, source).parse_template()?;
    let given = picture(alloc, source, &tree)?;
    assert_eq!(rt; given.as_str(), wanted, "of {source}");
    Ok(())
}

/// Each text of the rows has its tree.
pub fn all_trees(rt: &impl Abort, alloc: Global, rows: &[Tree]) -> Result<(), Fail> {
    let searcher = Searcher::new();
    for row in rows {
        accepted(rt, alloc, &searcher, row)?;
    }
    Ok(())
}
