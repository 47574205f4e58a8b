// Expressions in tags: their trees, and the texts of these.
use crate::listed_expressions;
use crate::listing::Listing;
use std::alloc::Global;
use upon_delimiters::search::Searcher;
use upon_lexer::compile::lex::Lexer;
use upon_lexer::literal::Lexed;
use upon_tag_parser::compile::parse::path::TagParser;
use upon_tree::ast::Expr;
use upon_tree::expression::TreeReader;
use upon_types::error::Result;
use upon_types::types::Token;

/// Returns the tokens between the begin of a tag and its end.
pub fn tokens_in(alloc: Global, tag: &str) -> Result<Vec<Lexed>> {
    let searcher = Searcher::new();
    let mut lexer = Lexer::new(alloc, &searcher, tag);
    let mut tokens = Vec::new(alloc);
    while let Some((token, span)) = lexer.next()? {
        if !matches!(token, Token::BeginExpr | Token::EndExpr) {
            tokens.push(Lexed { token, span })?;
        }
    }
    Ok(tokens)
}

/// Returns the tree of the expression that these tokens of a tag begin with.
pub fn tree_of_tokens(alloc: Global, tag: &str, tokens: &[Lexed]) -> Result<Expr> {
    let parser = TagParser { alloc, source: tag };
    Ok(TreeReader { parser }.known(tokens)?)
}

/// Returns the text of the tree of an expression.
pub fn text_of(alloc: Global, expression: &str) -> Result<String> {
    let tag = format!(in alloc; "{{{{ {expression} }}}}")?;
    let tokens = tokens_in(alloc, tag.as_str())?;
    let tree = tree_of_tokens(alloc, tag.as_str(), &tokens)?;
    let mut out = Listing::new(alloc, tag.as_str());
    listed_expressions::expr(&mut out, &tree)?;
    Ok(out.finish())
}
