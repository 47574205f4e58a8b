// Texts of blocks and of several tags, with their instructions.
use crate::syntax::parsing::outcomes::{Program, all_accepted};
use std::test::Fail;
use upon_syntax::compile::search::Searcher;

/// Blocks, and texts of several tags, with their instructions.
pub static STATEMENTS: &[Program] = &[
    (
        "{% if not a %}x{% else %}y{% endif %}",
        "var <a> .a<a>\njump if true 4\nraw <x>\njump 5\nraw <y>\n",
    ),
    (
        "{% if a %}x{% else if b %}y{% else %}z{% endif %}",
        "var <a> .a<a>\njump if false 4\nraw <x>\njump 9\nvar <b> .b<b>\njump if false 8\n\
         raw <y>\njump 9\nraw <z>\n",
    ),
    (
        "{% if a %}x{% else if not b %}y{% endif %}z",
        "var <a> .a<a>\njump if false 4\nraw <x>\njump 7\nvar <b> .b<b>\njump if true 7\nraw <y>\n\
         raw <z>\n",
    ),
    (
        "{% if a %}{% else %}{% endif %}",
        "var <a> .a<a>\njump if false 3\njump 3\n",
    ),
    (
        "{% for x in items %}{{ x }}{% endfor %}",
        "var <items> .items<items>\nloop x <items>\nnext 6\nvar <x> .x<x>\nemit\njump 2\n",
    ),
    (
        "{% for k, v in prices %}{{ k }}: {{ v }}{% endfor %}",
        "var <prices> .prices<prices>\nloop <k, v> k, v <prices>\nnext 9\nvar <k> .k<k>\nemit\n\
         raw <: >\nvar <v> .v<v>\nemit\njump 2\n",
    ),
    (
        "{% with user.name as n %}{{ n }}{% endwith %}",
        "var <user.name> .user<user> .name<.name>\nwith n\nvar <n> .n<n>\nemit\nend with\n",
    ),
    ("{% include \"footer\" %}", "include <\"footer\"> footer\n"),
    (
        "{% include \"row\" with item %}",
        "var <item> .item<item>\ninclude with <\"row\"> row\n",
    ),
    (
        "{% for i in [1, 2] %}{{ i }}{% if not loop.last %},{% endif %}{% endfor %}",
        "list <[1, 2]>\nliteral <1> 1\nlist push\nliteral <2> 2\nlist push\nloop i <[1, 2]>\n\
         next 13\nvar <i> .i<i>\nemit\nvar <loop.last> .loop<loop> .last<.last>\njump if true 12\n\
         raw <,>\njump 6\n",
    ),
    ("{{ [] }}{{ {} }}", "list <[]>\nemit\nmap <{}>\nemit\n"),
    (
        "{{ \"}}\" }}{{ \"\" }}",
        "literal <\"}}\"> }}\nemit\nliteral <\"\"> \nemit\n",
    ),
    (
        "{{ 9223372036854775807 }}{{ -9223372036854775808 }}{{ 0x }}",
        "literal <9223372036854775807> 9223372036854775807\nemit\n\
         literal <-9223372036854775808> -9223372036854775808\nemit\nliteral <0x> 0\nemit\n",
    ),
    (
        "{{ a.18446744073709551615 }}",
        "var <a.18446744073709551615> .a<a> .18446744073709551615<.18446744073709551615>\nemit\n",
    ),
    (
        "lorem {{ ipsum.123?.dolor }} sit amet",
        "raw <lorem >\nvar <ipsum.123?.dolor> .ipsum<ipsum> .123<.123> ?.dolor<?.dolor>\nemit\n\
         raw < sit amet>\n",
    ),
    (
        "lorem ipsum {# -#} \t\ndolor sit amet",
        "raw <lorem ipsum >\nraw <dolor sit amet>\n",
    ),
    (
        "lorem ipsum {# anything goes e.g. - # { #}",
        "raw <lorem ipsum >\n",
    ),
    (
        "{{ 1 -}}  {{- 2 }}",
        "literal <1> 1\nemit\nraw <>\nliteral <2> 2\nemit\n",
    ),
    (
        "日{{ привіт }}é",
        "raw <日>\nvar <привіт> .привіт<привіт>\nemit\nraw <é>\n",
    ),
];

#[test]
fn programs_of_statements(rt: HostRuntime) -> Result<(), Fail> {
    all_accepted(&rt, rt.alloc(), &Searcher::new(), STATEMENTS)
}
