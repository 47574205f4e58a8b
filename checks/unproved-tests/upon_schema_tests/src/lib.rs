// Schemas of JSON and shapes: tables of schemas, of what is refused and of values that are valid, and generated shapes.
#![tactic(auto)]

#[cfg(test)]
mod generated;
#[cfg(test)]
mod limits;
#[cfg(test)]
mod refusals;
#[cfg(test)]
mod rows;
#[cfg(test)]
mod said;
#[cfg(test)]
mod values;
