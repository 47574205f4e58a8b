// The tokens that whole texts are cut into, and which words, numbers, strings, brackets and comments are tokens.
use crate::lexer::cutting::{Cut, all_cut, cut_rows, ends, holds};
use std::test::Fail;
use upon_lexer::compile::lex::Lexer;
use upon_delimiters::search::Searcher;
use upon_types::types::Token;

static VECTORS: &[Cut] = cut_rows! {
    "" =>;
    "lorem { ipsum {{" => Raw "lorem { ipsum ", BeginExpr "{{";
    "lorem {{ -}}  {{- }} dolor" =>
        Raw "lorem ", BeginExpr "{{", Whitespace " ", EndExpr "-}}", Raw "", BeginExpr "{{-",
        Whitespace " ", EndExpr "}}", Raw " dolor";
    "lorem {{ ipsum.123?.dolor }} sit amet" =>
        Raw "lorem ", BeginExpr "{{", Whitespace " ", Ident "ipsum", Dot ".", Index "123",
        QuestionDot "?.", Ident "dolor", Whitespace " ", EndExpr "}}", Raw " sit amet";
    "lorem {{ [1, 3] {.} }} dolor" =>
        Raw "lorem ", BeginExpr "{{", Whitespace " ", OpenBracket "[", Number "1", Comma ",",
        Whitespace " ", Number "3", CloseBracket "]", Whitespace " ", OpenBrace "{", Dot ".",
        CloseBrace "}", Whitespace " ", EndExpr "}}", Raw " dolor";
    "lorem ipsum {%- dolor -%} sit" =>
        Raw "lorem ipsum", BeginBlock "{%-", Whitespace " ", Ident "dolor", Whitespace " ",
        EndBlock "-%}", Raw "sit";
    "lorem ipsum {# -#} \t\ndolor sit amet" =>
        Raw "lorem ipsum ", BeginComment "{#", Raw " ", EndComment "-#}", Raw "dolor sit amet";
    "lorem ipsum {# anything goes e.g. - # { #}" =>
        Raw "lorem ipsum ", BeginComment "{#", Raw " anything goes e.g. - # { ", EndComment "#}";
    "lorem ipsum {##}" => Raw "lorem ipsum ", BeginComment "{#", EndComment "#}";
    "lorem ipsum {{ . ?. |\t (_aZ_0 привіт) :\"hello\\n\" 0.5 0xffee00 }} dolor sit amet" =>
        Raw "lorem ipsum ", BeginExpr "{{", Whitespace " ", Dot ".", Whitespace " ",
        QuestionDot "?.", Whitespace " ", Pipe "|", Whitespace "\t ", OpenParen "(", Ident "_aZ_0",
        Whitespace " ", Ident "привіт", CloseParen ")", Whitespace " ", Colon ":",
        String "\"hello\\n\"", Whitespace " ", Number "0.5", Whitespace " ", Number "0xffee00",
        Whitespace " ", EndExpr "}}", Raw " dolor sit amet";
};

#[test]
fn vectors(rt: HostRuntime) -> Result<(), Fail> {
    all_cut(&rt, rt.alloc(), VECTORS)
}

#[test]
fn next_passes_whitespace(rt: HostRuntime) -> Result<(), Fail> {
    let alloc = rt.alloc();
    let searcher = Searcher::new();
    for (source, wanted) in VECTORS {
        let mut lexer = Lexer::new(alloc, &searcher, source);
        for (token, part) in *wanted {
            if *token != Token::Whitespace {
                let (given, span) = lexer.next()?.ok_or("too few tokens")?;
                assert_eq!(rt; given, *token, "at {part} in {source}");
                assert_eq!(rt; source.get(span.m..span.n), Some(*part), "in {source}");
            }
        }
        ends(&rt, &mut lexer, source)?;
    }
    Ok(())
}

// What a digit begins depends on the tokens before it in the tag.
static DIGITS: &[Cut] = cut_rows! {
    "{{ a.1.b }}" =>
        BeginExpr "{{", Whitespace " ", Ident "a", Dot ".", Index "1", Dot ".", Ident "b",
        Whitespace " ", EndExpr "}}";
    "{{ .5 }}" => BeginExpr "{{", Whitespace " ", Dot ".", Index "5", Whitespace " ", EndExpr "}}";
    "{{ a?.0b }}" =>
        BeginExpr "{{", Whitespace " ", Ident "a", QuestionDot "?.", Index "0", Ident "b",
        Whitespace " ", EndExpr "}}";
    "{{ a [1, 2.] }}" =>
        BeginExpr "{{", Whitespace " ", Ident "a", Whitespace " ", OpenBracket "[", Index "1",
        Comma ",", Whitespace " ", Number "2.", CloseBracket "]", Whitespace " ", EndExpr "}}";
    "{{ a(1.2) + 3 }}" =>
        BeginExpr "{{", Whitespace " ", Ident "a", OpenParen "(", Number "1.2", CloseParen ")",
        Whitespace " ", Plus "+", Whitespace " ", Number "3", Whitespace " ", EndExpr "}}";
    "{{ a + 1.2 }}" =>
        BeginExpr "{{", Whitespace " ", Ident "a", Whitespace " ", Plus "+", Whitespace " ",
        Index "1", Dot ".", Index "2", Whitespace " ", EndExpr "}}";
    "{{ a }}{{ 1.b }}" =>
        BeginExpr "{{", Whitespace " ", Ident "a", Whitespace " ", EndExpr "}}", BeginExpr "{{",
        Whitespace " ", Number "1.b", Whitespace " ", EndExpr "}}";
    "{% for x in [1, 2] %}" =>
        BeginBlock "{%", Whitespace " ", Keyword "for", Whitespace " ", Ident "x", Whitespace " ",
        Keyword "in", Whitespace " ", OpenBracket "[", Number "1", Comma ",", Whitespace " ",
        Number "2", CloseBracket "]", Whitespace " ", EndBlock "%}";
    "{{ a.b | f: 1, 2 }}" =>
        BeginExpr "{{", Whitespace " ", Ident "a", Dot ".", Ident "b", Whitespace " ", Pipe "|",
        Whitespace " ", Ident "f", Colon ":", Whitespace " ", Number "1", Comma ",", Whitespace " ",
        Number "2", Whitespace " ", EndExpr "}}";
    "{{ x?.b }}{{ -0b2 }}" =>
        BeginExpr "{{", Whitespace " ", Ident "x", QuestionDot "?.", Ident "b", Whitespace " ",
        EndExpr "}}", BeginExpr "{{", Whitespace " ", Minus "-", Number "0b2", Whitespace " ",
        EndExpr "}}";
    "{{ a|1.5 }}" =>
        BeginExpr "{{", Whitespace " ", Ident "a", Pipe "|", Number "1.5", Whitespace " ",
        EndExpr "}}";
    "{{1}}{%2%}" =>
        BeginExpr "{{", Number "1", EndExpr "}}", BeginBlock "{%", Number "2", EndBlock "%}";
};

// A delimiter counts where a token begins, and not inside a token.
static DELIMITERS: &[Cut] = cut_rows! {
    "{{ 5-}}" => BeginExpr "{{", Whitespace " ", Number "5-", EndExpr "}}";
    "{{ a-}}" => BeginExpr "{{", Whitespace " ", Ident "a", EndExpr "-}}";
    "{{ a--}}" => BeginExpr "{{", Whitespace " ", Ident "a", Minus "-", EndExpr "-}}";
    "{{ - }}" => BeginExpr "{{", Whitespace " ", Minus "-", Whitespace " ", EndExpr "}}";
    "{{ a }}}" => BeginExpr "{{", Whitespace " ", Ident "a", Whitespace " ", EndExpr "}}", Raw "}";
    "{{}}" => BeginExpr "{{", EndExpr "}}";
    "{{\n" => BeginExpr "{{", Whitespace "\n";
    "{{\r\n \ta}}" => BeginExpr "{{", Whitespace "\r\n \t", Ident "a", EndExpr "}}";
    "{{\"}}\"}}" => BeginExpr "{{", String "\"}}\"", EndExpr "}}";
};

#[test]
fn digits_and_delimiters(rt: HostRuntime) -> Result<(), Fail> {
    all_cut(&rt, rt.alloc(), DIGITS)?;
    all_cut(&rt, rt.alloc(), DELIMITERS)
}

#[test]
fn words(rt: HostRuntime) -> Result<(), Fail> {
    let alloc = rt.alloc();
    for word in [
        "if", "not", "else", "endif", "for", "in", "endfor", "with", "as", "endwith", "include",
        "true", "false",
    ] {
        holds(&rt, alloc, Token::Keyword, word)?;
    }
    for name in [
        "привіт",
        "größe",
        "e\u{301}",
        "a\u{663}",
        "_",
        "_1",
        "If",
        "ifs",
        "endif_",
        "none",
        "loop",
    ] {
        holds(&rt, alloc, Token::Ident, name)?;
    }
    Ok(())
}

#[test]
fn numbers_and_strings(rt: HostRuntime) -> Result<(), Fail> {
    let alloc = rt.alloc();
    for number in [
        "0", "0.5", "1_000", "0xFF", "0b12", "1e+5", "1-2", "9z.A", "5-",
    ] {
        holds(&rt, alloc, Token::Number, number)?;
    }
    for text in [
        "\"\"",
        "\"\\\\\"",
        "\"\\\"\"",
        "\"\\\\\\\"\"",
        "\"\\q\"",
        "\"\\é\"",
        "\"{{ %} #}\"",
        "\"привіт\t\u{b}\"",
    ] {
        holds(&rt, alloc, Token::String, text)?;
    }
    Ok(())
}

static BRACKETS: &[Cut] = cut_rows! {
    "{{ [" => BeginExpr "{{", Whitespace " ", OpenBracket "[";
    "{{ [({\"a\": [1]})] }}" =>
        BeginExpr "{{", Whitespace " ", OpenBracket "[", OpenParen "(", OpenBrace "{",
        String "\"a\"", Colon ":", Whitespace " ", OpenBracket "[", Number "1", CloseBracket "]",
        CloseBrace "}", CloseParen ")", CloseBracket "]", Whitespace " ", EndExpr "}}";
    "{{ {\"a\": {\"b\": 1} } }}" =>
        BeginExpr "{{", Whitespace " ", OpenBrace "{", String "\"a\"", Colon ":", Whitespace " ",
        OpenBrace "{", String "\"b\"", Colon ":", Whitespace " ", Number "1", CloseBrace "}",
        Whitespace " ", CloseBrace "}", Whitespace " ", EndExpr "}}";
    "{% []{}()%}" =>
        BeginBlock "{%", Whitespace " ", OpenBracket "[", CloseBracket "]", OpenBrace "{",
        CloseBrace "}", OpenParen "(", CloseParen ")", EndBlock "%}";
};

#[test]
fn matched_brackets(rt: HostRuntime) -> Result<(), Fail> {
    all_cut(&rt, rt.alloc(), BRACKETS)
}

static COMMENTS: &[Cut] = cut_rows! {
    "{#}" => BeginComment "{#", Raw "}";
    "{##}" => BeginComment "{#", EndComment "#}";
    "{#-#}" => BeginComment "{#-", EndComment "#}";
    "{#--#}" => BeginComment "{#-", EndComment "-#}";
    "{# a" => BeginComment "{#", Raw " a";
    "{#- a -#}" => BeginComment "{#-", Raw " a ", EndComment "-#}";
    "{# ( ] \" ? - & #}{# 1 #}" =>
        BeginComment "{#", Raw " ( ] \" ? - & ", EndComment "#}", BeginComment "{#", Raw " 1 ",
        EndComment "#}";
};

#[test]
fn comments(rt: HostRuntime) -> Result<(), Fail> {
    all_cut(&rt, rt.alloc(), COMMENTS)
}
