// Texts and the lines of their instructions.
use crate::instructions::lines;
use std::alloc::Global;
use std::process::Abort;
use std::test::Fail;
use upon_syntax::compile::parse::Parser;
use upon_syntax::compile::search::Searcher;

/// A text, and the lines of its instructions.
pub type Row = (&'static str, &'static str);

/// Each text of the rows has these instructions.
pub fn all_compiled(rt: &impl Abort, alloc: Global, rows: &[Row]) -> Result<(), Fail> {
    let searcher = Searcher::new();
    for (source, wanted) in rows {
        let code = Parser::new(alloc, &searcher, source).compile_template()?;
        let given = lines(alloc, &code, None)?;
        assert_eq!(rt; given.as_str(), *wanted, "of {source}");
    }
    Ok(())
}
