// Tests of values and faults: every conversion, equality and copies, and what the calls that make faults say.
#![tactic(auto)]

#[cfg(test)]
mod conversions;
#[cfg(test)]
mod faults;
#[cfg(test)]
mod values;
