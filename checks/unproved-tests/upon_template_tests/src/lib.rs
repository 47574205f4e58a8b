// Tests of templates and of the programs that run without proofs: tables of what each answers.
#![tactic(auto)]

#[cfg(test)]
mod callables;
#[cfg(test)]
mod delimiters;
#[cfg(test)]
mod engine;
#[cfg(test)]
mod expressions;
#[cfg(test)]
mod html;
#[cfg(test)]
mod includes;
#[cfg(test)]
mod json;
#[cfg(test)]
mod limits;
#[cfg(test)]
mod loops;
#[cfg(test)]
mod pictures;
#[cfg(test)]
mod program;
#[cfg(test)]
mod ready;
#[cfg(test)]
mod rendering;
#[cfg(test)]
mod store;
#[cfg(test)]
mod tool;
