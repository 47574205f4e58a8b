// The text that is left where a delimiter trims the white space beside it.
use crate::lexer::cutting::{Cut, all_cut, cut_rows};
use std::alloc::Global;
use std::test::Fail;
use upon_lexer::compile::lex::Lexer;
use upon_delimiters::search::Searcher;
use upon_types::types::{Span, Token};

static TRIMMED: &[Cut] = cut_rows! {
    "a  {{- 1 -}}  b" =>
        Raw "a", BeginExpr "{{-", Whitespace " ", Number "1", Whitespace " ", EndExpr "-}}", Raw "b";
    " a \t{{- b -}} \r\n c " =>
        Raw " a", BeginExpr "{{-", Whitespace " ", Ident "b", Whitespace " ", EndExpr "-}}",
        Raw "c ";
    "a\u{a0}\u{2003}{%- b -%}\u{3000}\u{85}c" =>
        Raw "a", BeginBlock "{%-", Whitespace " ", Ident "b", Whitespace " ", EndBlock "-%}",
        Raw "c";
    " x {#- a -#} y" => Raw " x", BeginComment "{#-", Raw " a ", EndComment "-#}", Raw "y";
    "{{ a -}} b {{- c }} d " =>
        BeginExpr "{{", Whitespace " ", Ident "a", Whitespace " ", EndExpr "-}}", Raw "b",
        BeginExpr "{{-", Whitespace " ", Ident "c", Whitespace " ", EndExpr "}}", Raw " d ";
    "  a  {{ b }}  c  {% d %}  " =>
        Raw "  a  ", BeginExpr "{{", Whitespace " ", Ident "b", Whitespace " ", EndExpr "}}",
        Raw "  c  ", BeginBlock "{%", Whitespace " ", Ident "d", Whitespace " ", EndBlock "%}",
        Raw "  ";
    "{{ a -}} b " =>
        BeginExpr "{{", Whitespace " ", Ident "a", Whitespace " ", EndExpr "-}}", Raw "b ";
    " b {{- a }}" =>
        Raw " b", BeginExpr "{{-", Whitespace " ", Ident "a", Whitespace " ", EndExpr "}}";
    "{{ a -}}{{ b }} c" =>
        BeginExpr "{{", Whitespace " ", Ident "a", Whitespace " ", EndExpr "-}}", BeginExpr "{{",
        Whitespace " ", Ident "b", Whitespace " ", EndExpr "}}", Raw " c";
    "\u{200b}{{- a -}}\u{feff}" =>
        Raw "\u{200b}", BeginExpr "{{-", Whitespace " ", Ident "a", Whitespace " ", EndExpr "-}}",
        Raw "\u{feff}";
};

#[test]
fn trimming(rt: HostRuntime) -> Result<(), Fail> {
    all_cut(&rt, rt.alloc(), TRIMMED)
}

// The span of the first token that is empty.
fn empty_span(alloc: Global, source: &str) -> Result<Option<Span>, Fail> {
    let searcher = Searcher::new();
    let mut lexer = Lexer::new(alloc, &searcher, source);
    for _ in source.bytes() {
        match lexer.lex()? {
            Some((_, span)) if span.m == span.n => return Ok(Some(span)),
            Some(_) => {}
            None => return Ok(None),
        }
    }
    Ok(None)
}

#[test]
fn spans_of_what_trimming_empties(rt: HostRuntime) -> Result<(), Fail> {
    for (source, at) in [
        ("lorem {{ -}}  {{- }} dolor", 12),
        ("{{ a -}}   {{- b }}", 8),
        ("{{ a -}}   {{ b }}", 11),
        ("{{ a }}   {{- b }}", 7),
        ("{{ a -}}\u{a0} ", 11),
        (" \u{3000}{%- a %}", 0),
    ] {
        let span = Span { m: at, n: at };
        assert_eq!(rt; empty_span(rt.alloc(), source)?, Some(span), "in {source}");
    }
    assert_eq!(rt; empty_span(rt.alloc(), "{{ a -}}{{- b }}")?, None);
    Ok(())
}
