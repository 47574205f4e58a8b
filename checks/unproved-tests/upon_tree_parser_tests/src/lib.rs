// Tests of the crate that makes trees: the trees of expressions and of templates as text, trees of many levels, and
// trees for which memory is out.
#![tactic(auto)]

#[cfg(test)]
mod depths;
#[cfg(test)]
mod expressions;
#[cfg(test)]
mod listed_expressions;
#[cfg(test)]
mod listed_statements;
#[cfg(test)]
mod listing;
#[cfg(test)]
mod memory;
#[cfg(test)]
mod pieces;
#[cfg(test)]
mod statements;
#[cfg(test)]
mod tags;
