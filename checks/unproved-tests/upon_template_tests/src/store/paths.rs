// Which texts are paths, and what names denote in the folders of paths.
use std::test::Fail;
use upon_store::path::{is_path, resolve};

#[test]
fn texts_that_are_paths(rt: HostRuntime) -> Result<(), Fail> {
    for text in ["a", "a/b", "a/b/c.html", "...", ".a", "a..", "ä/ß"] {
        assert!(&rt; is_path(text), "{text}");
    }
    for text in [
        "", "/", "/a", "a/", "a//b", ".", "..", "a/./b", "a/..", "../a",
    ] {
        assert!(&rt; !is_path(text), "{text}");
    }
    Ok(())
}

#[test]
fn names(rt: HostRuntime) -> Result<(), Fail> {
    for (path, name, wanted) in [
        ("a/main", "x", Some("a/x")),
        ("a/main", "../b/y", Some("b/y")),
        ("a/main", "/z", Some("z")),
        ("a/main", "./x", Some("a/x")),
        ("a/main", "x/../y", Some("a/y")),
        ("a/b/main", "../../z", Some("z")),
        ("z", "x/y", Some("x/y")),
        ("z", "/x/y", Some("x/y")),
        ("a/main", ".", Some("a")),
        ("a/main", "../../z", None),
        ("a/main", "..", None),
        ("a/main", "", None),
        ("a/main", "/", None),
        ("a/main", "//x", None),
        ("a/main", "x//y", None),
        ("a/main", "x/", None),
        ("z", "..", None),
        ("z", "/..", None),
        ("z", ".", None),
    ] {
        let found = resolve(rt.alloc(), path, name)?;
        match (&found, wanted) {
            (Some(found), Some(wanted)) => assert_eq!(&rt; found.as_str(), wanted),
            (None, None) => (),
            _ => panic!(&rt; "{name} in the folder of {path}"),
        }
    }
    Ok(())
}
