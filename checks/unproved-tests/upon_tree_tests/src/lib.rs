// Tests of the syntax tree's types: trees that nest deep, or are large, are dropped without taking more of the call stack.
#![tactic(auto)]

#[cfg(test)]
mod expressions;
#[cfg(test)]
mod parts;
#[cfg(test)]
mod statements;
