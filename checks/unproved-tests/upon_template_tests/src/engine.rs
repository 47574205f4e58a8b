// Contexts that serde writes, and what templates need.
pub mod contexts;
pub mod needs;
