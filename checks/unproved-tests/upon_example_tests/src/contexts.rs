// Tests of the examples of docs/CONTEXTS.md.
use crate::wanted::{integers, is_value, one, text, with};
use std::alloc::{AllocError, Global};
use std::test::Fail;
use upon_examples::contexts::{Placeholder, john, john_by_hand, john_of_a_program};
use upon_lookup::source::{ValueAccess, ValueAccessOp, ValueMember, ValueSource};
use upon_serde::{Result, Value};

// The value that each example makes, put together by the tests' own helpers.
fn wanted(alloc: Global) -> std::result::Result<Value, AllocError> {
    let post = one(alloc, "title", text(alloc, "Hello")?)?;
    let post = with(alloc, post, "likes", integers(alloc, &[1, 2])?)?;
    let posts = Value::List(vec![in alloc; post, Value::None]?);
    let person = one(alloc, "name", text(alloc, "John")?)?;
    let person = with(alloc, person, "born", Value::Integer(1979))?;
    with(alloc, person, "posts", posts)
}

#[test]
fn written_out(rt: HostRuntime) -> Result<()> {
    let alloc = rt.alloc();
    is_value(&rt, john(alloc)?, wanted(alloc)?);
    Ok(())
}

#[test]
fn of_a_program(rt: HostRuntime) -> Result<()> {
    let alloc = rt.alloc();
    is_value(&rt, john_of_a_program(alloc)?, wanted(alloc)?);
    Ok(())
}

#[test]
fn by_hand(rt: HostRuntime) -> Result<()> {
    let alloc = rt.alloc();
    is_value(&rt, john_by_hand(alloc)?, wanted(alloc)?);
    Ok(())
}

#[test]
fn from_a_function(rt: HostRuntime) -> std::result::Result<(), Fail> {
    let alloc = rt.alloc();
    let mut source = Placeholder {
        text: String::from_str(alloc, "...")?,
    };
    let name = ValueMember {
        op: ValueAccessOp::Direct,
        access: ValueAccess::Key("name"),
    };
    match source.value(&[name]) {
        Ok(answer) => assert!(rt; answer == Value::from_text(alloc, "...")?),
        Err(_) => panic!(rt; "no answer"),
    }
    Ok(())
}
