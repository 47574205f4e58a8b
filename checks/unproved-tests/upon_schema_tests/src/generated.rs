// Generated shapes: the shape of the schema of a shape is that shape.
use crate::said::schema_text;
use std::alloc::{AllocError, Global};
use std::test::Fail;
use upon_schema::read::shape_of_schema;
use upon_schema::write::schema_of;
use upon_shape::shape::{Keys, Plain, Shape};

const SHAPES: u64 = 1_000; // ./test: 100

const KEYS: [&str; 4] = ["a", "b", "c/d", "~"];

// Numbers that look random, always the same from the same begin.
#[derive(Clone, Copy)]
struct Random {
    state: u64,
}

impl Random {
    fn new(number: u64) -> Random {
        Random {
            state: number.wrapping_mul(2862933555777941757).wrapping_add(3037000493),
        }
    }

    // A number below another, which is not 0.
    fn below(&mut self, end: usize) -> usize {
        self.state = self
            .state
            .wrapping_mul(6364136223846793005)
            .wrapping_add(1442695040888963407);
        ((self.state >> 33) as usize) % end
    }

    fn is_odd(&mut self) -> bool {
        self.below(2) == 1
    }
}

// A shape that is so many levels deep at most.
#[cycle(shape)]
fn shape(alloc: Global, random: &mut Random, levels: usize) -> Result<Shape, AllocError> {
    if random.below(8) == 0 {
        return Ok(Shape::Any);
    }
    let plain = Plain {
        none: random.is_odd(),
        truth: random.is_odd(),
        integer: random.is_odd(),
        text: random.is_odd(),
    };
    let items = if levels > 0 && random.is_odd() {
        Some(Box::new(alloc, shape(alloc, random, levels - 1)?)?)
    } else {
        None
    };
    let keys = if levels > 0 && random.is_odd() {
        Some(keys(alloc, random, levels - 1)?)
    } else {
        None
    };
    Ok(Shape::OneOf { plain, items, keys })
}

#[cycle(shape)]
fn keys(alloc: Global, random: &mut Random, levels: usize) -> Result<Keys<Shape>, AllocError> {
    let mut keys = Keys::each(alloc, shape(alloc, random, levels)?)?;
    for _ in 0..random.below(4) {
        let name = String::from_str(alloc, KEYS[random.below(4)])?;
        let required = random.is_odd();
        keys = keys.with_key(name, required, shape(alloc, random, levels)?)?;
    }
    Ok(keys)
}

#[test]
fn schemas_have_their_shapes(rt: HostRuntime) -> Result<(), Fail> {
    let alloc = rt.alloc();
    for number in 0..SHAPES {
        let mut random = Random::new(number);
        let shape = shape(alloc, &mut random, 3)?;
        let schema = schema_of(alloc, &shape)?;
        let Ok(again) = shape_of_schema(alloc, &schema) else {
            return Err(Fail::new(format_args!("refused: {number}")));
        };
        if !again.is_as_wide_as(&shape) {
            return Err(Fail::new(format_args!("narrower: {number}")));
        }
        // A shape that takes each value at its outermost level is read as the one of any value, which is wider.
        let (text, other) = (schema_text(alloc, &shape)?, schema_text(alloc, &again)?);
        if !shape.is_as_wide_as(&again) && !says_all(&text) {
            return Err(Fail::new(format_args!("wider: {number} {text} {other}")));
        }
    }
    Ok(())
}

// Whether there is a schema of all types in the text.
fn says_all(text: &str) -> bool {
    text.contains(r#"["boolean","integer","string","array","object","null"]"#)
}
