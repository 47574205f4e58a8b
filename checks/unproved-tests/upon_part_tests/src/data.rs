// What serde's data become: each row of the table that `to_value` states, and the macro `value!`. What texts of each
// format become.
pub mod documents;
pub mod formats;
pub mod json_texts;
pub mod keys;
pub mod literal;
pub mod nested;
pub mod parts;
pub mod paths;
pub mod refusals;
pub mod rows;
pub mod rows_say;
pub mod samples;
pub mod tables;
pub mod texts;
pub mod wanted;
