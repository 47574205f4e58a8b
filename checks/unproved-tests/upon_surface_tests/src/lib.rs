// The public surface, as a caller writes it: each public name that upon has or that a user needs is named by its path in
// `upon`, in a function with the signature that its caller relies on. Each public field is read, and each enum is matched
// with no arm for what is left. Only `upon`, `upon_store` and serde's `Serialize` are named. So a name that goes, or that
// has another signature, stops this crate; a test a module calls what can be called with little.
#![tactic(auto)]

#[cfg(test)]
mod value;

#[cfg(test)]
mod types;

#[cfg(test)]
mod compile;

#[cfg(test)]
mod error;

#[cfg(test)]
mod fmt;

#[cfg(test)]
mod functions;

#[cfg(test)]
mod render;

#[cfg(test)]
mod root;

#[cfg(test)]
mod store;

#[cfg(test)]
mod tree;

#[cfg(test)]
mod frames;

#[cfg(test)]
mod beside;

#[cfg(test)]
mod tried;
