// Numbers of templates: what they denote, and what is wrong with their digits.
use std::test::Fail;
use upon_syntax::compile::parse::literal::{DigitFault, number};

/// A number's text, whether a minus stands before it, and what it denotes.
type Number = (&'static str, bool, Result<i64, DigitFault>);

const NUMBERS: &[Number] = &[
    ("42", false, Ok(42)),
    ("1_000", true, Ok(-1000)),
    ("0b101", false, Ok(5)),
    ("0o17", false, Ok(15)),
    ("0xfF", false, Ok(255)),
    ("0x", false, Ok(0)),
    ("9223372036854775807", false, Ok(i64::MAX)),
    ("9223372036854775808", true, Ok(i64::MIN)),
    ("9223372036854775808", false, Err(DigitFault::TooLarge)),
    ("0b2", false, Err(DigitFault::BadDigit(2))),
    (
        "1z99999999999999999999",
        false,
        Err(DigitFault::BadDigit(1)),
    ),
    ("99999999999999999999z", false, Err(DigitFault::TooLarge)),
];

#[test]
fn numbers(rt: HostRuntime) -> Result<(), Fail> {
    for (digits, minus, value) in NUMBERS {
        assert_eq!(rt; number(digits, *minus), *value, "of {digits}");
    }
    Ok(())
}
