// A test of the example of the README.
use std::test::Fail;
use upon_examples::readme::greet;

#[test]
fn greets(rt: HostRuntime) -> Result<(), Fail> {
    assert_eq!(rt;
        greet(rt.alloc(), &["Ann", "John"])?.as_str(),
        "Hello Ann, John!"
    );
    Ok(())
}
