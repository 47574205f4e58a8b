// An enum with each kind of variant.
use serde::Serialize;

#[derive(Drop, Serialize)]
pub enum Shape {
    Dot,
    Round(u8),
    Box(u8, u8),
    Ring { inner: u8, outer: u8 },
}
