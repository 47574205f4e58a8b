// Many pages at once: which names are refused, on which values pages are rendered, and which files hold a text already.
#![tactic(auto)]

#[cfg(test)]
mod names;
#[cfg(test)]
mod values;
