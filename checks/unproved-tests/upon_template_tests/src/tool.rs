// The tool: its words, what it shows of templates on JSON, what it lists, and what it says of errors.
pub mod calls;
pub mod checks;
pub mod colors;
pub mod contexts;
pub mod data;
pub mod hints;
pub mod libraries;
pub mod memory;
pub mod names;
pub mod near;
pub mod renderings;
pub mod words;
