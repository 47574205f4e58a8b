// Generated data: kinds of values, and values of a kind.
use std::alloc::{AllocError, Global};
use std::collections::BTreeMap;
use upon::Value;

/// The keys of generated maps.
pub const KEYS: [&str; 4] = ["a", "b", "c", "d"];

/// Numbers that look random, always the same from the same begin.
#[derive(Clone, Copy)]
pub struct Random {
    state: u64,
}

impl Random {
    /// Begins with a number.
    pub fn new(number: u64) -> Random {
        Random {
            state: number.wrapping_mul(2862933555777941757).wrapping_add(3037000493),
        }
    }

    /// Returns a number below another, which is not 0.
    pub fn below(&mut self, end: usize) -> usize {
        self.state = self
            .state
            .wrapping_mul(6364136223846793005)
            .wrapping_add(1442695040888963407);
        ((self.state >> 33) as usize) % end
    }

    /// Returns whether one of so many cases is there.
    pub fn one_in(&mut self, cases: usize) -> bool {
        self.below(cases) == 0
    }
}

/// A key of generated maps: which one, whether it may be missing, and the kind of what it has.
#[derive(Clone, Copy)]
pub struct Member {
    pub key: usize,
    pub is_optional: bool,
    pub kind: usize,
}

/// A kind of values. Kinds are named by their index in a list.
#[derive(Drop)]
pub enum Kind {
    Plain(usize),
    List(usize),
    Map(Vec<Member>),
}

/// Adds a map's kind, with kinds below it so many levels deep, and returns its index.
pub fn add_map(
    alloc: Global,
    random: &mut Random,
    kinds: &mut Vec<Kind>,
    levels: usize,
) -> Result<usize, AllocError> {
    let mut members = Vec::new(alloc);
    for key in 0..KEYS.len() {
        if !random.one_in(3) {
            let kind = add_kind(alloc, random, kinds, levels)?;
            members.push(Member {
                key,
                is_optional: random.one_in(4),
                kind,
            })?;
        }
    }
    kinds.push(Kind::Map(members))?;
    Ok(kinds.len() - 1)
}

// Adds any kind.
fn add_kind(
    alloc: Global,
    random: &mut Random,
    kinds: &mut Vec<Kind>,
    levels: usize,
) -> Result<usize, AllocError> {
    let choice = if levels == 0 { 0 } else { random.below(4) };
    match choice {
        2 => {
            let item = add_kind(alloc, random, kinds, levels - 1)?;
            kinds.push(Kind::List(item))?;
        }
        3 => {
            add_map(alloc, random, kinds, levels - 1)?;
        }
        _ => kinds.push(Kind::Plain(random.below(4)))?,
    }
    Ok(kinds.len() - 1)
}

/// Returns a value of a kind.
pub fn value_of(
    alloc: Global,
    random: &mut Random,
    kinds: &[Kind],
    kind: usize,
) -> Result<Value, AllocError> {
    match &kinds[kind] {
        Kind::Plain(which) => plain_of(alloc, random, *which),
        Kind::List(item) => {
            let mut items = Vec::new(alloc);
            for _ in 0..random.below(3) {
                items.push(value_of(alloc, random, kinds, *item)?)?;
            }
            Ok(Value::List(items))
        }
        Kind::Map(members) => map_of(alloc, random, kinds, members),
    }
}

fn plain_of(alloc: Global, random: &mut Random, which: usize) -> Result<Value, AllocError> {
    Ok(match which {
        0 => Value::None,
        1 => Value::Bool(random.one_in(2)),
        2 => Value::Integer(random.below(3) as i64),
        _ => Value::String(String::from_str(alloc, KEYS[random.below(4)])?),
    })
}

fn map_of(
    alloc: Global,
    random: &mut Random,
    kinds: &[Kind],
    members: &[Member],
) -> Result<Value, AllocError> {
    let mut entries = BTreeMap::new(alloc);
    for member in members {
        if member.is_optional && random.one_in(2) {
            continue;
        }
        let value = value_of(alloc, random, kinds, member.kind)?;
        entries.insert(String::from_str(alloc, KEYS[member.key])?, value)?;
    }
    Ok(Value::Map(entries))
}
