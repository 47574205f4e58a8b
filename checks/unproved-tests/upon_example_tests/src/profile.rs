// A test of the first example of docs/CONTEXTS.md.
use std::test::Fail;
use upon_examples::profile::{Headline, Profile, page};

#[test]
fn renders(rt: HostRuntime) -> std::result::Result<(), Fail> {
    let alloc = rt.alloc();
    let hello = Headline {
        title: "Hello",
        likes: Some(2),
    };
    let more = Headline {
        title: "More",
        likes: None,
    };
    let profile = Profile {
        name: "John",
        posts: vec![in alloc; hello, more]?,
    };
    let text = page(alloc, &profile)?;
    assert_eq!(rt; text.as_str(), "John: Hello (2) More ()");
    Ok(())
}
