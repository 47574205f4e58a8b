// Texts that are refused, with their first faults, and texts that have instructions, with these.
pub mod after_values;
pub mod blocks;
pub mod cuts;
pub mod expressions;
pub mod in_brackets;
pub mod inside;
pub mod meetings;
pub mod outcomes;
pub mod statements;
pub mod tags;
pub mod worked;
