// Tests of the calls by bytes.
#![tactic(auto)]

#[cfg(test)]
mod calls;
#[cfg(test)]
mod contexts;
#[cfg(test)]
mod memory;
#[cfg(test)]
mod numbers;
