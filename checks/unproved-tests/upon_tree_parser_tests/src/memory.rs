// Trees for which a growth of memory may be refused: they are as ever, or memory is out. `checks/refuse-in-test`
// refuses each in turn.
use crate::pieces::Piece::{self, *};
use crate::{pieces, tags};
use upon_types::error::ErrorKind;

// An expression with each kind of part.
const EXPRESSION: (&str, &str) = (
    "[(a.b?.0 | f), {\"k\": g(1, \"l\"), \"m\": {} }] | h: [], i(), (true) | j",
    "list<[(a.b?.0 | f), {\"k\": g(1, \"l\"), \"m\": {} }]>(paren<(a.b?.0 | f)>(\
     .a<a>@<a> .b<b>@<.b> ?.0<0>@<?.0> | f<f>@<a.b?.0 | f>), \
     map<{\"k\": g(1, \"l\"), \"m\": {} }>(k<\"k\">: call<g(1, \"l\")> g<g> args<g(1, \"l\">(\
     1<1>, text l<\"l\">), m<\"m\">: map<{}>())) \
     | h<h>@<[(a.b?.0 | f), {\"k\": g(1, \"l\"), \"m\": {} }] | h: [], i(), (true)> \
     args<: [], i(), (true)>(list<[]>(), call<i()> i<i>, paren<(true)>(yes<true>)) \
     | j<j>@<[(a.b?.0 | f), {\"k\": g(1, \"l\"), \"m\": {} }] | h: [], i(), (true) | j>",
);

// A template with each kind of piece.
const TEMPLATE: (&[Piece], &str) = (
    &[
        Raw("a"),
        If("b"),
        ForTwo("c", "d", "e"),
        Show("f", "fg"),
        Else,
        Include("h"),
        End,
        ElseIfNot("i"),
        With("j", "k"),
        IncludeWith("l", "m"),
        End,
        Else,
        Raw("n"),
        End,
        Raw("o"),
    ],
    "raw<a> if 1<b> {for c<c>, d<d>@<cd> in 1<e> {show<fg> 1<f>} else {include h<h>}} \
     else {if not 1<i> {with 1<j> as k<k> {include l<l> with 1<m>}} else {raw<n>}} raw<o>",
);

#[test]
fn expressions(rt: HostRuntime) {
    match tags::text_of(rt.alloc(), EXPRESSION.0) {
        Ok(text) => assert_eq!(rt; text.as_str(), EXPRESSION.1),
        Err(error) => assert!(rt; matches!(error.kind(), ErrorKind::OutOfMemory), "{error}"),
    }
}

#[test]
fn templates(rt: HostRuntime) {
    if let Ok(text) = pieces::text_of(rt.alloc(), TEMPLATE.0) {
        assert_eq!(rt; text.as_str(), TEMPLATE.1);
    }
}
