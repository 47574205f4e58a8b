// What standard functions are declared to take and to give: their tables, each signature on samples that fit, and
// templates that call them.
#![tactic(auto)]

#[cfg(test)]
mod calls;
#[cfg(test)]
mod given;
#[cfg(test)]
mod page;
#[cfg(test)]
mod tables;
#[cfg(test)]
mod templates;
