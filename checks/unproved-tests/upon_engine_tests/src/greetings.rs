// The callers that build an engine, run.
use std::process::Abort;
use std::test::Fail;
use upon_users::built;

#[test]
fn by_a_template(rt: HostRuntime) -> Result<(), Fail> {
    let text = built::hello(rt.alloc(), "Ann")?;
    assert_eq!(&rt; text.as_str(), "Hello Ann!");
    Ok(())
}

#[test]
fn by_two_templates(rt: HostRuntime) -> Result<(), Fail> {
    let text = built::page_of(rt.alloc(), "Ann")?;
    assert_eq!(&rt; text.as_str(), "Hello *Ann!");
    Ok(())
}

#[test]
fn to_a_writer(rt: HostRuntime) -> Result<(), Fail> {
    let alloc = rt.alloc();
    let mut out = Vec::new(alloc);
    built::hello_to(alloc, "Ann", &mut out)?;
    assert_eq!(&rt; out.as_slice(), b"Hello Ann!".as_slice());
    Ok(())
}
