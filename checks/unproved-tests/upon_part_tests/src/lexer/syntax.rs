// Syntaxes that are built, and when two are the same.
use std::alloc::{AllocError, Global};
use std::test::Fail;
use upon_delimiters::search::Searcher;
use upon_delimiters::syntax::{Syntax, is_same};
use upon_types::types::{Delimiter, Span};

// The syntax of the usual pairs.
fn usual(alloc: Global) -> Result<Syntax, AllocError> {
    Syntax::builder()
        .expr("{{", "}}")
        .block("{%", "%}")
        .comment("{#", "#}")
        .build(alloc)
}

#[test]
fn usual_pairs_are_the_default(rt: HostRuntime) -> Result<(), Fail> {
    let built = usual(rt.alloc())?;
    let default = Syntax::default();
    assert!(rt; built == default);
    assert!(rt; default == built);
    assert!(rt; is_same(&built, &default));
    assert!(rt; built.try_clone()? == default);
    assert!(rt; default.try_clone()? == built);
    Ok(())
}

// The default of a type, by its trait alone.
fn default_of<T: Default>() -> T {
    T::default()
}

#[test]
fn default_by_its_trait(rt: HostRuntime) -> Result<(), Fail> {
    let default: Syntax = default_of();
    assert!(rt; default == Syntax::default());
    Ok(())
}

#[test]
fn order_of_setting(rt: HostRuntime) -> Result<(), Fail> {
    let mut builder = Syntax::builder();
    builder.comment("{#", "#}");
    builder.block("<", ">");
    builder.expr("{{", "}}");
    builder.block("{%", "%}");
    assert!(rt; builder.build(rt.alloc())? == Syntax::default());
    Ok(())
}

#[test]
fn other_syntaxes(rt: HostRuntime) -> Result<(), Fail> {
    let alloc = rt.alloc();
    let usual = usual(alloc)?;
    let fewer = Syntax::builder()
        .expr("{{", "}}")
        .block("{%", "%}")
        .build(alloc)?;
    assert!(rt; fewer != usual);
    let exchanged = Syntax::builder()
        .expr("{%", "%}")
        .block("{{", "}}")
        .comment("{#", "#}")
        .build(alloc)?;
    assert!(rt; exchanged != usual);
    let longer = Syntax::builder()
        .expr("{{", "}}")
        .block("{%", "%}")
        .comment("{#", "##}")
        .build(alloc)?;
    assert!(rt; longer != usual);
    Ok(())
}

#[test]
fn clones_are_apart(rt: HostRuntime) -> Result<(), Fail> {
    let alloc = rt.alloc();
    let mut builder = Syntax::builder();
    builder.expr("<", ">");
    let copy = builder.clone()?;
    assert!(rt; copy.build(alloc)? == builder.build(alloc)?);
    builder.expr("[", "]");
    assert!(rt; copy.build(alloc)? != builder.build(alloc)?);
    assert!(rt; copy.build(alloc)? == Syntax::builder().expr("<", ">").build(alloc)?);
    Ok(())
}

#[test]
fn nothing_set(rt: HostRuntime) -> Result<(), Fail> {
    let searcher = Searcher::with_syntax(Syntax::builder().build(rt.alloc())?);
    assert_eq!(rt; searcher.find_at("{{ a }} {% b %}", 0), None);
    Ok(())
}

#[test]
fn four_delimiters_of_a_pair(rt: HostRuntime) -> Result<(), Fail> {
    let searcher = Searcher::with_syntax(Syntax::builder().expr("<%", "%>").build(rt.alloc())?);
    for (source, kind, m, n) in [
        ("a <% b", Delimiter::BeginExpr, 2, 4),
        ("a <%- b", Delimiter::BeginExprTrim, 2, 5),
        ("a %> b", Delimiter::EndExpr, 2, 4),
        ("a -%> b", Delimiter::EndExprTrim, 2, 5),
    ] {
        assert_eq!(rt;
            searcher.find_at(source, 0),
            Some((kind, Span { m, n })),
            "in {source}"
        );
    }
    assert_eq!(rt; searcher.find_at("{{ a }}", 0), None);
    Ok(())
}

#[test]
fn first_of_equal_texts(rt: HostRuntime) -> Result<(), Fail> {
    let syntax = Syntax::builder()
        .block("%", "%")
        .comment("%", "%")
        .build(rt.alloc())?;
    let searcher = Searcher::with_syntax(syntax);
    assert_eq!(rt;
        searcher.find_at("a % b", 0),
        Some((Delimiter::BeginBlock, Span { m: 2, n: 3 }))
    );
    assert_eq!(rt;
        searcher.find_at("a %- b", 0),
        Some((Delimiter::BeginBlockTrim, Span { m: 2, n: 4 }))
    );
    assert_eq!(rt;
        searcher.find_at("a -% b", 0),
        Some((Delimiter::EndBlockTrim, Span { m: 2, n: 4 }))
    );
    Ok(())
}
