// Tests of the crates below `upon` that run without proofs: tables of what each answers.
#![tactic(auto)]

#[cfg(test)]
mod compiler;
#[cfg(test)]
mod data;
#[cfg(test)]
mod functions;
#[cfg(test)]
mod instructions;
#[cfg(test)]
mod lexer;
#[cfg(test)]
mod quote;
#[cfg(test)]
mod render;
#[cfg(test)]
mod shapes;
#[cfg(test)]
mod standard;
#[cfg(test)]
mod standard_depths;
#[cfg(test)]
mod standard_orders;
#[cfg(test)]
mod standard_parts;
#[cfg(test)]
mod standard_writing;
#[cfg(test)]
mod syntax;
#[cfg(test)]
mod vm_calls;
