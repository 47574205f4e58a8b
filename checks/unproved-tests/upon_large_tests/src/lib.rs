// Tests that run without proofs: how large all may be, and what no clause says of callables and writers.
#![tactic(auto)]

#[cfg(test)]
mod callables;
#[cfg(test)]
mod depths;
#[cfg(test)]
mod faults;
#[cfg(test)]
mod html;
#[cfg(test)]
mod json;
#[cfg(test)]
mod needs;
#[cfg(test)]
mod pages;
#[cfg(test)]
mod parts;
#[cfg(test)]
mod refusals;
#[cfg(test)]
mod sizes;
#[cfg(test)]
mod store;
#[cfg(test)]
mod writers;
