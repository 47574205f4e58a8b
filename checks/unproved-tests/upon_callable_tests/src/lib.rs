// Tests of calls where growths are refused, of functions and formatters that a program adds, of contexts, pages and the
// store, and of what takes no memory: `checks/growths` refuses each growth in turn.
#![tactic(auto)]

#[cfg(test)]
mod callables;
#[cfg(test)]
mod from_serde;
#[cfg(test)]
mod growths;
#[cfg(test)]
mod html;
#[cfg(test)]
mod lent_loops;
#[cfg(test)]
mod memory;
#[cfg(test)]
mod skipped;
#[cfg(test)]
mod starved;
#[cfg(test)]
mod store;
