// Tests of contexts from serde where growths are refused, and what tests of contexts share.
pub mod memory;
pub mod samples;
pub mod wanted;
