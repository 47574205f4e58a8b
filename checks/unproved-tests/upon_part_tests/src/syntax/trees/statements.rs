// Texts of blocks and of several tags, with their trees.
use crate::syntax::trees::{Tree, all_trees};
use std::test::Fail;

// Blocks, and texts of several tags, with their trees.
static STATEMENTS: &[Tree] = &[
    (
        "{% if not a %}x{% else %}y{% endif %}",
        " (if not (var <a> .a<a>) (raw <x>) (else (raw <y>)))",
    ),
    (
        "{% if a %}x{% else if b %}y{% else %}z{% endif %}",
        " (if (var <a> .a<a>) (raw <x>) (else (if (var <b> .b<b>) (raw <y>) (else (raw <z>)))))",
    ),
    (
        "{% if a %}x{% else if not b %}y{% endif %}z",
        " (if (var <a> .a<a>) (raw <x>) (else (if not (var <b> .b<b>) (raw <y>)))) (raw <z>)",
    ),
    (
        "{% if a %}{% else %}{% endif %}",
        " (if (var <a> .a<a>) (else))",
    ),
    (
        "{% for x in items %}{{ x }}{% endfor %}",
        " (for x (var <items> .items<items>) (show <{{ x }}> (var <x> .x<x>)))",
    ),
    (
        "{% for k, v in prices %}{{ k }}: {{ v }}{% endfor %}",
        " (for <k, v> k v (var <prices> .prices<prices>) (show <{{ k }}> (var <k> .k<k>)) (raw <: >)\
         \x20(show <{{ v }}> (var <v> .v<v>)))",
    ),
    (
        "{% with user.name as n %}{{ n }}{% endwith %}",
        " (with n (var <user.name> .user<user> .name<.name>) (show <{{ n }}> (var <n> .n<n>)))",
    ),
    ("{% include \"footer\" %}", " (include <\"footer\"> footer)"),
    (
        "{% include \"row\" with item %}",
        " (include <\"row\"> row (var <item> .item<item>))",
    ),
    (
        "{% for i in [1, 2] %}{{ i }}{% if not loop.last %},{% endif %}{% endfor %}",
        " (for i (list <[1, 2]> (literal <1> 1) (literal <2> 2)) (show <{{ i }}> (var <i> .i<i>))\
         \x20(if not (var <loop.last> .loop<loop> .last<.last>) (raw <,>)))",
    ),
    (
        "{{ [] }}{{ {} }}",
        " (show <{{ [] }}> (list <[]>)) (show <{{ {} }}> (map <{}>))",
    ),
    (
        "{{ \"}}\" }}{{ \"\" }}",
        " (show <{{ \"}}\" }}> (literal <\"}}\"> }})) (show <{{ \"\" }}> (literal <\"\"> ))",
    ),
    (
        "{{ 9223372036854775807 }}{{ -9223372036854775808 }}{{ 0x }}",
        " (show <{{ 9223372036854775807 }}> (literal <9223372036854775807> 9223372036854775807))\
         \x20(show <{{ -9223372036854775808 }}> (literal <-9223372036854775808> -9223372036854775808))\
         \x20(show <{{ 0x }}> (literal <0x> 0))",
    ),
    (
        "{{ a.18446744073709551615 }}",
        " (show <{{ a.18446744073709551615 }}> (var <a.18446744073709551615> .a<a>\
         \x20.18446744073709551615<.18446744073709551615>))",
    ),
    (
        "lorem {{ ipsum.123?.dolor }} sit amet",
        " (raw <lorem >) (show <{{ ipsum.123?.dolor }}> (var <ipsum.123?.dolor> .ipsum<ipsum>\
         \x20.123<.123> ?.dolor<?.dolor>)) (raw < sit amet>)",
    ),
    (
        "lorem ipsum {# -#} \t\ndolor sit amet",
        " (raw <lorem ipsum >) (raw <dolor sit amet>)",
    ),
    (
        "lorem ipsum {# anything goes e.g. - # { #}",
        " (raw <lorem ipsum >)",
    ),
    (
        "{{ 1 -}}  {{- 2 }}",
        " (show <{{ 1 -}}> (literal <1> 1)) (raw <>) (show <{{- 2 }}> (literal <2> 2))",
    ),
    (
        "日{{ привіт }}é",
        " (raw <日>) (show <{{ привіт }}> (var <привіт> .привіт<привіт>)) (raw <é>)",
    ),
];

#[test]
fn trees_of_statements(rt: HostRuntime) -> Result<(), Fail> {
    all_trees(&rt, rt.alloc(), STATEMENTS)
}
