// Tests of functions: every adapter, return and refusal once, with its value or its fault.
#![tactic(auto)]

#[cfg(test)]
mod adapters;
#[cfg(test)]
mod callables;
#[cfg(test)]
mod reports;
#[cfg(test)]
mod returns;
