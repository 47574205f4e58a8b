// Operands, and calls on them.
pub mod calls;
pub mod fixed;
pub mod operands;
