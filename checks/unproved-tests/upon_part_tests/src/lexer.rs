// The lexer: the tokens and faults of texts, the search for delimiters, and syntaxes that are built.
pub mod cutting;
pub mod faults;
pub mod search;
pub mod search_time;
pub mod syntax;
pub mod tokens;
pub mod trimming;
