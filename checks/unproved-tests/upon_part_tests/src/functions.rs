// Functions: what owned arguments take and refuse.
pub mod arguments;
pub mod reports;
