// The formatters that write a value as the content of one token.
pub mod json;
pub mod rows;
pub mod shell;
pub mod yaml;
