// The compiler: texts with the instructions that come from what the instructions do, and what it is told in an order that
// no text has.
pub mod events;
pub mod expressions;
pub mod rows;
pub mod statements;
