// Tests of formatters and outputs.
#![tactic(auto)]

#[cfg(test)]
mod formatters;
#[cfg(test)]
mod outputs;
