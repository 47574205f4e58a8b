// Statements: jumps, loops, names and includes.
use crate::compiler::rows::{Row, all_compiled};
use std::test::Fail;

const STATEMENTS: &[Row] = &[
    ("", ""),
    (
        "{% if a %}x{% endif %}y",
        "var .a\njump if false 3\nraw 10..11\nraw 22..23\n",
    ),
    (
        "{% if not a %}x{% else %}y{% endif %}",
        "var .a\njump if true 4\nraw 14..15\njump 5\nraw 25..26\n",
    ),
    (
        "{% for x in xs %}{{ x }}{% endfor %}",
        "var .xs\nloop x 12..14\nnext 6\nvar .x\nemit\njump 2\n",
    ),
    // A loop with another branch, which begins after the way back and ends with the loop.
    (
        "{% for x in xs %}a{% else %}b{% endfor %}",
        "var .xs\nloop x 12..14\nnext else 5 6\nraw 17..18\njump 2\nraw 28..29\n",
    ),
    // The jumps of an inner block count from the start.
    (
        "{% for k, v in xs %}{% if a %}x{% endif %}{% endfor %}",
        "var .xs\nloop k, v 15..17\nnext 7\nvar .a\njump if false 6\nraw 30..31\njump 2\n",
    ),
    (
        "{% with a as b %}x{% endwith %}",
        "var .a\nwith b\nraw 17..18\nend with\n",
    ),
    (
        "{% include \"t\" %}{% include \"u\" with a %}",
        "include t\nvar .a\ninclude with u\n",
    ),
];

#[test]
fn statements(rt: HostRuntime) -> Result<(), Fail> {
    all_compiled(&rt, rt.alloc(), STATEMENTS)
}
