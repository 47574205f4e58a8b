// The names of files in a folder.
use std::alloc::{AllocError, Global};
use std::test::Fail;
use upon_tool_many::names::{first_again, is_inside, page_name};
use upon_tool_many::pages::Page;

#[test]
fn inside(rt: HostRuntime) -> Result<(), Fail> {
    for (name, wanted) in [
        ("a", true),
        ("a.txt", true),
        ("a/b", true),
        ("a/b/c.html", true),
        (".a", true),
        ("...", true),
        ("..a/b..", true),
        ("a b\n\\é", true),
        ("", false),
        ("/", false),
        ("/a", false),
        ("a/", false),
        ("a//b", false),
        (".", false),
        ("..", false),
        ("./a", false),
        ("../a", false),
        ("a/../b", false),
        ("a/..", false),
        ("a/.", false),
        ("a\0", false),
        ("a/\0/b", false),
    ] {
        assert_eq!(rt; is_inside(name), wanted, "{name:?}");
    }
    Ok(())
}

#[test]
fn pages(rt: HostRuntime) -> Result<(), Fail> {
    for (path, wanted) in [
        ("a.upon", Some("a")),
        ("a.html.upon", Some("a.html")),
        ("a/b.upon", Some("a/b")),
        ("a.upon.upon", Some("a.upon")),
        ("a", None),
        ("a.UPON", None),
        ("a.upon.html", None),
        ("upon", None),
        (".upon", None),
        ("a/.upon", None),
        ("a.upon/b", None),
        ("", None),
    ] {
        assert_eq!(rt; page_name(path), wanted, "{path:?}");
    }
    Ok(())
}

// The pages of these names.
fn pages_of(alloc: Global, names: &[&str]) -> Result<Vec<Page<usize>>, AllocError> {
    let mut pages = Vec::new(alloc);
    for name in names {
        let name = String::from_str(alloc, name)?;
        pages.push(Page { name, from: 0 })?;
    }
    Ok(pages)
}

#[test]
fn again(rt: HostRuntime) -> Result<(), Fail> {
    let alloc = rt.alloc();
    for (names, wanted) in [
        ([].as_slice(), None),
        (["a"].as_slice(), None),
        (["a", "b", "ab"].as_slice(), None),
        (["a", "a"].as_slice(), Some((0, 1))),
        (["a", "b", "c", "b", "a"].as_slice(), Some((1, 3))),
        (["a", "A", "a/b", "b/a", "a"].as_slice(), Some((0, 4))),
    ] {
        let pages = pages_of(alloc, names)?;
        assert_eq!(rt; first_again(alloc, pages.as_slice())?, wanted, "{names:?}");
    }
    Ok(())
}
