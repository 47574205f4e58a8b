// What templates see while they run: the stack, and sources of values.
pub mod frames;
pub mod sources;
pub mod stack;
pub mod values;
