// Tests of the example of docs/NEEDS.md.
use std::borrow::CowStr;
use std::test::Fail;
use upon::{Engine, value};
use upon_examples::cached_pages::{Page, page_of};

// The text of a page.
fn is_text(page: &Option<Page>, wanted: &str) -> std::result::Result<(), Fail> {
    match page {
        Some(page) if page.text.as_str() == wanted => Ok(()),
        _ => Err(Fail::new(format_args!("another page than {wanted:?}"))),
    }
}

#[test]
fn pages(rt: HostRuntime) -> std::result::Result<(), Fail> {
    let alloc = rt.alloc();
    let mut engine = Engine::new(alloc);
    engine.add_template(
        CowStr::Borrowed("page"),
        CowStr::Borrowed("{{ title }}{% include \"by\" %}"),
    )?;
    engine.add_template(CowStr::Borrowed("by"), CowStr::Borrowed(" by {{ author }}"))?;
    let first = value! { in alloc; title: "A", author: "B", visits: 1 }?;
    let visited = value! { in alloc; title: "A", author: "B", visits: 2 }?;
    let renamed = value! { in alloc; title: "A", author: "C", visits: 2 }?;
    let last = page_of(alloc, &engine, "page", &first, None)?;
    is_text(&last, "A by B")?;
    let last = page_of(alloc, &engine, "page", &visited, last)?;
    is_text(&last, "A by B")?;
    let last = page_of(alloc, &engine, "page", &renamed, last)?;
    is_text(&last, "A by C")
}
