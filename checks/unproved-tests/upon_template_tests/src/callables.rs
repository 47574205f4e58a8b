// Functions and formatters in templates, and writers that fail.
pub mod added;
pub mod calls;
pub mod writers;
