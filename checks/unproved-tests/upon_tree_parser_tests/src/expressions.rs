// Expressions, and the texts of their trees.
use crate::tags::text_of;
use std::alloc::Global;
use std::process::Abort;
use std::test::Fail;

/// An expression and the text of its tree.
type Row = (&'static str, &'static str);

fn all_listed(rt: &impl Abort, alloc: Global, rows: &[Row]) -> Result<(), Fail> {
    for (expression, wanted) in rows {
        let text = text_of(alloc, expression)?;
        assert_eq!(rt; text.as_str(), *wanted, "of {expression}");
    }
    Ok(())
}

const PATHS: &[Row] = &[
    ("a", ".a<a>@<a>"),
    ("a.b", ".a<a>@<a> .b<b>@<.b>"),
    ("a.b?.0.c", ".a<a>@<a> .b<b>@<.b> ?.0<0>@<?.0> .c<c>@<.c>"),
    (".a?.b", ".a<a>@<.a> ?.b<b>@<?.b>"),
    ("?.a . b", "?.a<a>@<?.a> .b<b>@<. b>"),
    (".5.17", ".5<5>@<.5> .17<17>@<.17>"),
    (
        "привіт.größe",
        ".привіт<привіт>@<привіт> .größe<größe>@<.größe>",
    ),
    (
        "a_name_of_more_than_sixteen_bytes",
        ".a_name_of_more_than_sixteen_bytes<a_name_of_more_than_sixteen_bytes>\
         @<a_name_of_more_than_sixteen_bytes>",
    ),
];

#[test]
fn paths(rt: HostRuntime) -> Result<(), Fail> {
    all_listed(&rt, rt.alloc(), PATHS)
}

const LITERALS: &[Row] = &[
    ("true", "yes<true>"),
    ("false", "no<false>"),
    ("42", "42<42>"),
    ("1_000", "1000<1_000>"),
    ("0xff", "255<0xff>"),
    ("-7", "-7<-7>"),
    ("- 5", "-5<- 5>"),
    ("+3", "3<+3>"),
    (
        "-9223372036854775808",
        "-9223372036854775808<-9223372036854775808>",
    ),
    ("\"\"", "text <\"\">"),
    ("\"a b\"", "text a b<\"a b\">"),
    ("\"a\\n\"", "text a\n<\"a\\n\">"),
    ("\"\\\"\\\\\"", "text \"\\<\"\\\"\\\\\">"),
];

#[test]
fn literals(rt: HostRuntime) -> Result<(), Fail> {
    all_listed(&rt, rt.alloc(), LITERALS)
}

const PARENTHESES: &[Row] = &[
    ("(a)", "paren<(a)>(.a<a>@<a>)"),
    ("( 1 )", "paren<( 1 )>(1<1>)"),
    ("((1))", "paren<((1))>(paren<(1)>(1<1>))"),
    ("(a | f)", "paren<(a | f)>(.a<a>@<a> | f<f>@<a | f>)"),
    (
        "((1 | f: 2) | g)",
        "paren<((1 | f: 2) | g)>(paren<(1 | f: 2)>(1<1> | f<f>@<1 | f: 2> args<: 2>(2<2>)) \
         | g<g>@<(1 | f: 2) | g>)",
    ),
];

#[test]
fn parentheses(rt: HostRuntime) -> Result<(), Fail> {
    all_listed(&rt, rt.alloc(), PARENTHESES)
}

const LISTS_AND_MAPS: &[Row] = &[
    ("[]", "list<[]>()"),
    ("[ ]", "list<[ ]>()"),
    ("[1]", "list<[1]>(1<1>)"),
    ("[1,]", "list<[1,]>(1<1>)"),
    ("[1, 2, 3]", "list<[1, 2, 3]>(1<1>, 2<2>, 3<3>)"),
    (
        "[1, [2, 3], \"a\" , ]",
        "list<[1, [2, 3], \"a\" , ]>(1<1>, list<[2, 3]>(2<2>, 3<3>), text a<\"a\">)",
    ),
    ("[[], {}]", "list<[[], {}]>(list<[]>(), map<{}>())"),
    ("{}", "map<{}>()"),
    ("{\"k\": 1}", "map<{\"k\": 1}>(k<\"k\">: 1<1>)"),
    (
        "{\"k\": 1, \"\\n\": [2],}",
        "map<{\"k\": 1, \"\\n\": [2],}>(k<\"k\">: 1<1>, \n<\"\\n\">: list<[2]>(2<2>))",
    ),
    (
        "{\"k\": {\"l\": 1}, \"k\": 2}",
        "map<{\"k\": {\"l\": 1}, \"k\": 2}>(k<\"k\">: map<{\"l\": 1}>(l<\"l\">: 1<1>), k<\"k\">: 2<2>)",
    ),
    (
        "[(a | f), {\"k\": g(1)}]",
        "list<[(a | f), {\"k\": g(1)}]>(paren<(a | f)>(.a<a>@<a> | f<f>@<a | f>), \
         map<{\"k\": g(1)}>(k<\"k\">: call<g(1)> g<g> args<g(1>(1<1>)))",
    ),
];

#[test]
fn lists_and_maps(rt: HostRuntime) -> Result<(), Fail> {
    all_listed(&rt, rt.alloc(), LISTS_AND_MAPS)
}

const CALLS: &[Row] = &[
    ("f()", "call<f()> f<f>"),
    ("f ( )", "call<f ( )> f<f>"),
    ("f(1)", "call<f(1)> f<f> args<f(1>(1<1>)"),
    (
        "f(1, a.b)",
        "call<f(1, a.b)> f<f> args<f(1, a.b>(1<1>, .a<a>@<a> .b<b>@<.b>)",
    ),
    (
        "f( g(1), [2] )",
        "call<f( g(1), [2] )> f<f> args<f( g(1), [2]>(call<g(1)> g<g> args<g(1>(1<1>), \
         list<[2]>(2<2>))",
    ),
    (
        "f((a | g))",
        "call<f((a | g))> f<f> args<f((a | g)>(paren<(a | g)>(.a<a>@<a> | g<g>@<a | g>))",
    ),
];

#[test]
fn calls(rt: HostRuntime) -> Result<(), Fail> {
    all_listed(&rt, rt.alloc(), CALLS)
}

const FILTERS: &[Row] = &[
    ("a | f", ".a<a>@<a> | f<f>@<a | f>"),
    ("a|f:1", ".a<a>@<a> | f<f>@<a|f:1> args<:1>(1<1>)"),
    ("f() | g", "call<f()> f<f> | g<g>@<f() | g>"),
    ("a | f | g", ".a<a>@<a> | f<f>@<a | f> | g<g>@<a | f | g>"),
    (
        "a | f: 1, \"b\" | g | h: c.d",
        ".a<a>@<a> | f<f>@<a | f: 1, \"b\"> args<: 1, \"b\">(1<1>, text b<\"b\">) \
         | g<g>@<a | f: 1, \"b\" | g> | h<h>@<a | f: 1, \"b\" | g | h: c.d> args<: c.d>(.c<c>@<c> .d<d>@<.d>)",
    ),
    (
        "(1 | f) | g: [ 2 ]",
        "paren<(1 | f)>(1<1> | f<f>@<1 | f>) | g<g>@<(1 | f) | g: [ 2 ]> args<: [ 2 ]>(list<[ 2 ]>(2<2>))",
    ),
    (
        "a | f: (b | g: 1), 2",
        ".a<a>@<a> | f<f>@<a | f: (b | g: 1), 2> args<: (b | g: 1), 2>(paren<(b | g: 1)>(.b<b>@<b> \
         | g<g>@<b | g: 1> args<: 1>(1<1>)), 2<2>)",
    ),
];

#[test]
fn filters(rt: HostRuntime) -> Result<(), Fail> {
    all_listed(&rt, rt.alloc(), FILTERS)
}

// What is after an expression in a tag is left.
const FOLLOWED: &[Row] = &[
    ("a.b as c", ".a<a>@<a> .b<b>@<.b>"),
    ("[1] as a", "list<[1]>(1<1>)"),
    ("1 | f as a", "1<1> | f<f>@<1 | f>"),
    ("1 | f: 2 as a", "1<1> | f<f>@<1 | f: 2> args<: 2>(2<2>)"),
];

#[test]
fn followed(rt: HostRuntime) -> Result<(), Fail> {
    all_listed(&rt, rt.alloc(), FOLLOWED)
}
