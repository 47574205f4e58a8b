// Tests of pages whose text is known by clauses alone, and of templates by their names.
#![tactic(auto)]

#[cfg(test)]
mod greetings;
#[cfg(test)]
mod named;
