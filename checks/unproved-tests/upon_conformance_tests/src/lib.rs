// The cases of conformance/ that neither the tool nor libupon can be asked, on the engine itself.
#![tactic(auto)]

#[cfg(test)]
mod callables;
#[cfg(test)]
mod cases;
#[cfg(test)]
mod rows;
