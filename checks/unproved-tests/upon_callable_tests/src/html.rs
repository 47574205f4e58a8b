// Tests of pages of HTML: texts that would be markup, and where growths are refused.
pub mod hostile;
pub mod memory;
