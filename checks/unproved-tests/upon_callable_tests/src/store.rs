// Tests of the store where growths are refused.
pub mod memory;
