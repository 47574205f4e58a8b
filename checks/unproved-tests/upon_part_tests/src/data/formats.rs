// The names of formats, and the endings of paths that tell them.
use std::test::Fail;
use upon_data::format::Format;

#[test]
fn names(_rt: HostRuntime) -> Result<(), Fail> {
    for (word, wanted) in [
        ("json", Some(Format::Json)),
        ("jsonl", Some(Format::JsonLines)),
        ("csv", Some(Format::Csv)),
        ("toml", Some(Format::Toml)),
        ("JSON", None),
        ("ndjson", None),
        ("", None),
    ] {
        if Format::of_name(word) != wanted {
            return Err(Fail::new(format_args!("{word:?} is no {wanted:?}")));
        }
    }
    Ok(())
}

#[test]
fn paths(_rt: HostRuntime) -> Result<(), Fail> {
    for (path, wanted) in [
        ("a.json", Some(Format::Json)),
        ("b/a.JSON", Some(Format::Json)),
        ("a.jsonl", Some(Format::JsonLines)),
        ("a.NdJson", Some(Format::JsonLines)),
        ("a.b.csv", Some(Format::Csv)),
        ("é.Toml", Some(Format::Toml)),
        ("a.tsv", None),
        ("json", None),
        ("a.json/b", None),
        ("é", None),
        ("", None),
    ] {
        if Format::of_path(path) != wanted {
            return Err(Fail::new(format_args!("{path:?} is no {wanted:?}")));
        }
    }
    Ok(())
}
