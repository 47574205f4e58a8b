// The faults of cutting: the tokens before each, its reason, and the part of the text where it is reported.
use crate::lexer::cutting::{
    BEGIN, Refusal, SPACE, all_refused, ends, refusal_rows, refuses, reports,
};
use std::test::Fail;
use upon_lexer::compile::lex::Lexer;
use upon_delimiters::search::Searcher;
use upon_types::types::{Span, Token};

#[test]
fn next_refuses(rt: HostRuntime) -> Result<(), Fail> {
    let alloc = rt.alloc();
    let searcher = Searcher::new();
    let source = "{{ \t? }}";
    let mut lexer = Lexer::new(alloc, &searcher, source);
    assert_eq!(rt;
        lexer.next()?,
        Some((Token::BeginExpr, Span { m: 0, n: 2 }))
    );
    let error = lexer.next().err().ok_or("no fault")?;
    reports(
        &rt,
        alloc,
        &error,
        "unexpected character",
        Span { m: 4, n: 6 },
        source,
    )?;
    ends(&rt, &mut lexer, source)?;
    ends(&rt, &mut lexer, source)
}

static UNCLOSED_BRACKETS: &[Refusal] = refusal_rows! {
    "{{ [1, 2 }}" =>
        BeginExpr "{{", Whitespace " ", OpenBracket "[", Number "1", Comma ",", Whitespace " ",
        Number "2", Whitespace " "; "unclosed open bracket" at 3..4;
    "{{ {\"a\": {\"b\": 1}} }}" =>
        BeginExpr "{{", Whitespace " ", OpenBrace "{", String "\"a\"", Colon ":", Whitespace " ",
        OpenBrace "{", String "\"b\"", Colon ":", Whitespace " ", Number "1";
        "unclosed open brace" at 9..10;
    "{{ ([] }}" =>
        BeginExpr "{{", Whitespace " ", OpenParen "(", OpenBracket "[", CloseBracket "]",
        Whitespace " "; "unclosed open parenthesis" at 3..4;
    "{%[(-%}" =>
        BeginBlock "{%", OpenBracket "[", OpenParen "("; "unclosed open parenthesis" at 3..4;
};

static UNEXPECTED_BRACKETS: &[Refusal] = refusal_rows! {
    "{{ ] }}" => BeginExpr "{{", Whitespace " "; "unexpected close bracket" at 3..4;
    "{{ } }}" => BeginExpr "{{", Whitespace " "; "unexpected close brace" at 3..4;
    "{{ ) }}" => BeginExpr "{{", Whitespace " "; "unexpected close parenthesis" at 3..4;
    "{%}" => BeginBlock "{%"; "unexpected close brace" at 2..3;
    "{{ (1] }}" =>
        BeginExpr "{{", Whitespace " ", OpenParen "(", Number "1";
        "unexpected close bracket" at 5..6;
    "{{ [1} }}" =>
        BeginExpr "{{", Whitespace " ", OpenBracket "[", Number "1";
        "unexpected close brace" at 5..6;
    "{{ ({) }}" =>
        BeginExpr "{{", Whitespace " ", OpenParen "(", OpenBrace "{";
        "unexpected close parenthesis" at 5..6;
    "{{ [] ] }}" =>
        BeginExpr "{{", Whitespace " ", OpenBracket "[", CloseBracket "]", Whitespace " ";
        "unexpected close bracket" at 6..7;
};

#[test]
fn mismatched_brackets(rt: HostRuntime) -> Result<(), Fail> {
    all_refused(&rt, rt.alloc(), UNCLOSED_BRACKETS)?;
    all_refused(&rt, rt.alloc(), UNEXPECTED_BRACKETS)
}

static UNEXPECTED_ENDS: &[Refusal] = refusal_rows! {
    "a }} b" => Raw "a "; "unexpected end expression" at 2..4;
    "a %} b" => Raw "a "; "unexpected end block" at 2..4;
    "a #} b" => Raw "a "; "unexpected end comment" at 2..4;
    "a -}} " => Raw "a "; "unexpected end expression" at 2..5;
    "-%}" =>; "unexpected end block" at 0..3;
    "{##}#}" => BeginComment "{#", EndComment "#}"; "unexpected end comment" at 4..6;
    "{# a }} #}" => BeginComment "{#", Raw " a "; "unexpected end expression" at 5..7;
    "{#-%}" => BeginComment "{#-"; "unexpected end block" at 3..5;
    "{% }}" => BeginBlock "{%", Whitespace " "; "unexpected end expression" at 3..5;
    "{{ %}" => BeginExpr "{{", Whitespace " "; "unexpected end block" at 3..5;
    "{{ -%}" => BeginExpr "{{", Whitespace " "; "unexpected end block" at 3..6;
    "{% #}" => BeginBlock "{%", Whitespace " "; "unexpected end comment" at 3..5;
    "{{ [%}" => BeginExpr "{{", Whitespace " ", OpenBracket "["; "unexpected end block" at 4..6;
};

static UNCLOSED_TAGS: &[Refusal] = refusal_rows! {
    "{{ {% }}" => BeginExpr "{{", Whitespace " "; "unclosed begin expression" at 0..2;
    "{{{{" => BeginExpr "{{"; "unclosed begin expression" at 0..2;
    "{{ ({{" => BeginExpr "{{", Whitespace " ", OpenParen "("; "unclosed begin expression" at 0..2;
    "a {{- {#" => Raw "a", BeginExpr "{{-", Whitespace " "; "unclosed begin expression" at 2..5;
    "x{%{{ %}" => Raw "x", BeginBlock "{%"; "unclosed begin block" at 1..3;
    "{% a {%-" =>
        BeginBlock "{%", Whitespace " ", Ident "a", Whitespace " "; "unclosed begin block" at 0..2;
    "{# {{ #}" => BeginComment "{#", Raw " "; "unclosed begin comment" at 0..2;
    "{# {# #}" => BeginComment "{#", Raw " "; "unclosed begin comment" at 0..2;
    "{#{%- #}" => BeginComment "{#"; "unclosed begin comment" at 0..2;
    "{#- a {{- #}" => BeginComment "{#-", Raw " a "; "unclosed begin comment" at 0..3;
};

#[test]
fn misplaced_delimiters(rt: HostRuntime) -> Result<(), Fail> {
    all_refused(&rt, rt.alloc(), UNEXPECTED_ENDS)?;
    all_refused(&rt, rt.alloc(), UNCLOSED_TAGS)
}

static UNEXPECTED_CHARACTERS: &[Refusal] = refusal_rows! {
    "{{ a ? }}" => BeginExpr "{{", Whitespace " ", Ident "a", Whitespace " ";
        "unexpected character" at 5..7;
    "{{ a ?" => BeginExpr "{{", Whitespace " ", Ident "a", Whitespace " ";
        "unexpected character" at 5..6;
    "{{ a & b }}" => BeginExpr "{{", Whitespace " ", Ident "a", Whitespace " ";
        "unexpected character" at 5..6;
    "{%1;%}" => BeginBlock "{%", Number "1"; "unexpected character" at 3..4;
};

#[test]
fn unexpected_characters(rt: HostRuntime) -> Result<(), Fail> {
    let alloc = rt.alloc();
    let reason = "unexpected character";
    for (source, n) in [
        ("{{ ? }}", 5),
        ("{{ ?", 4),
        ("{{ ??. }}", 5),
        ("{{ ?é }}", 6),
        ("{{ ?}}", 5),
        ("{{ & }}", 4),
        ("{{ % }}", 4),
        ("{{ # }}", 4),
        ("{{ ' }}", 4),
        ("{{ \\ }}", 4),
        ("{{ \u{b} }}", 4),
        ("{{ \u{c} }}", 4),
        ("{{ \u{85} }}", 5),
        ("{{ \u{a0} }}", 5),
        ("{{ \u{2003} }}", 6),
        ("{{ \u{3000} }}", 6),
        ("{{ \u{301} }}", 5),
        ("{{ \u{663} }}", 5),
        ("{{ 😀 }}", 7),
    ] {
        refuses(
            &rt,
            alloc,
            source,
            &[BEGIN, SPACE],
            reason,
            Span { m: 3, n },
        )?;
    }
    all_refused(&rt, alloc, UNEXPECTED_CHARACTERS)
}

static UNDELIMITED_STRINGS: &[Refusal] = refusal_rows! {
    "{{ a b \"c" =>
        BeginExpr "{{", Whitespace " ", Ident "a", Whitespace " ", Ident "b", Whitespace " ";
        "undelimited string" at 7..9;
    "{%\"a\"\"b %}" => BeginBlock "{%", String "\"a\""; "undelimited string" at 5..10;
};

#[test]
fn undelimited_strings(rt: HostRuntime) -> Result<(), Fail> {
    let alloc = rt.alloc();
    for (source, n) in [
        ("{{ \"a", 5),
        ("{{ \"", 4),
        ("{{ \"é }}", 9),
        ("{{ \"a\nb\" }}", 5),
        ("{{ \"a\rb\" }}", 5),
        ("{{ \"a\r\n\" }}", 5),
        ("{{ \"a\\\nb\" }}", 6),
        ("{{ \"a\\\rb\" }}", 6),
        ("{{ \"a\\\"", 7),
        ("{{ \"a\\", 6),
        ("{{ \"\\\\\\\" }}", 11),
    ] {
        refuses(
            &rt,
            alloc,
            source,
            &[BEGIN, SPACE],
            "undelimited string",
            Span { m: 3, n },
        )?;
    }
    all_refused(&rt, alloc, UNDELIMITED_STRINGS)
}
