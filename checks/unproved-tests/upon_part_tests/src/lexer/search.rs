// The search for the default delimiters.
use std::process::Abort;
use upon_delimiters::search::Searcher;
use upon_types::types::{Delimiter, Span};

fn finds(rt: &impl Abort, source: &str, wanted: Option<(Delimiter, Span)>) {
    assert_eq!(rt; Searcher::new().find_at(source, 0), wanted, "in {source}");
}

#[test]
fn first_and_longest(rt: HostRuntime) {
    for (source, kind, m, n) in [
        ("a {{- b", Delimiter::BeginExprTrim, 2, 5),
        ("a {{ b", Delimiter::BeginExpr, 2, 4),
        ("a -}} b", Delimiter::EndExprTrim, 2, 5),
        ("a - }} b", Delimiter::EndExpr, 4, 6),
        ("{%", Delimiter::BeginBlock, 0, 2),
        ("é%}", Delimiter::EndBlock, 2, 4),
        ("{#-#}", Delimiter::BeginCommentTrim, 0, 3),
        ("#}", Delimiter::EndComment, 0, 2),
    ] {
        finds(&rt, source, Some((kind, Span { m, n })));
    }
    finds(&rt, "a { b } c", None);
}

#[test]
fn only_from_the_place_on(rt: HostRuntime) {
    let searcher = Searcher::new();
    assert_eq!(rt;
        searcher.find_at("{{}}", 1),
        Some((Delimiter::EndExpr, Span { m: 2, n: 4 }))
    );
    assert_eq!(rt;
        searcher.starts_with("-}}", 0),
        Some((Delimiter::EndExprTrim, Span { m: 0, n: 3 }))
    );
    assert_eq!(rt;
        searcher.starts_with("-}}", 1),
        Some((Delimiter::EndExpr, Span { m: 1, n: 3 }))
    );
    assert_eq!(rt; searcher.starts_with("a}}", 0), None);
}
