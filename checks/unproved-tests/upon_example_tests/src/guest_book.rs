// A test of the example of docs/HTML.md.
use std::test::Fail;
use upon_examples::guest_book::guest_book;

const SHOWN: &str = "<p title=\"Ann\">&lt;script&gt;alert(1)&lt;/script&gt;</p>
<p title=\"&quot; onmouseover=&quot;alert(1)\">2 &lt; 3 &amp; 4</p>
";

#[test]
fn shows_a_guest_book(rt: HostRuntime) -> std::result::Result<(), Fail> {
    let text = guest_book(rt.alloc())?;
    assert_eq!(rt; text.as_str(), SHOWN);
    Ok(())
}
