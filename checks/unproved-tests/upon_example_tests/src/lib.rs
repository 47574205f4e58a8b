// Tests of the examples that the pages show, which `upon_examples` has.
#![tactic(auto)]

#[cfg(test)]
mod cached_pages;
#[cfg(test)]
mod contexts;
#[cfg(test)]
mod documents;
#[cfg(test)]
mod examples;
#[cfg(test)]
mod formatters;
#[cfg(test)]
mod functions;
#[cfg(test)]
mod guest_book;
#[cfg(test)]
mod lint;
#[cfg(test)]
mod ported;
#[cfg(test)]
mod profile;
#[cfg(test)]
mod readme;
#[cfg(test)]
mod reports;
#[cfg(test)]
mod sources;
#[cfg(test)]
mod wanted;
