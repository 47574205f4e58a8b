// Templates that are accepted on the shape of samples, or are not: by a table, and generated ones, of which those that are
// accepted are rendered.
#![tactic(auto)]

#[cfg(test)]
mod data;
#[cfg(test)]
mod depths;
#[cfg(test)]
mod generated;
#[cfg(test)]
mod page;
#[cfg(test)]
mod rows;
#[cfg(test)]
mod said;
#[cfg(test)]
mod texts;
