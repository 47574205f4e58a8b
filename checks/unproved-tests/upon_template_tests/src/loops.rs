// Loops, their state, and the scopes of `for` and `with`.
use std::alloc::Global;
use std::borrow::CowStr;
use std::test::Fail;
use upon::{Engine, Result, Value, value};
use upon_examples::answers::all_answer;

fn context(alloc: Global) -> Result<Value> {
    value! { in alloc; xs: ["a", "b"], x: {b: 9}, m: {b: 1, a: 2}, n: 5 }
}

#[test]
fn texts(rt: HostRuntime) -> std::result::Result<(), Fail> {
    let alloc = rt.alloc();
    let rows = [
        (
            "{% for i in [1, 2] %}{{ i }}{% if not loop.last %},{% endif %}{% endfor %}",
            "1,2",
        ),
        ("{% for x in [{\"a\": 1}] %}{{ x?.b }}|{% endfor %}", "|"),
        (
            "{% for k, v in m %}{{ k }}={{ v }};{% endfor %}",
            "a=2;b=1;",
        ),
        (
            "{% for k, v in {\"b\": 1, \"a\": 2} %}{{ k }}={{ v }};{% endfor %}",
            "a=2;b=1;",
        ),
        (
            "{% for x in xs %}{% with x as loop %}{{ loop }}{% endwith %}{% endfor %}",
            "ab",
        ),
        (
            "{% for x in xs %}{{ loop.index }}{{ x }}{% endfor %}",
            "0a1b",
        ),
        ("{% for a, a in {\"k\": 1} %}{{ a }}{% endfor %}", "k"),
        ("{% for loop in [7] %}{{ loop.last }}{% endfor %}", "true"),
        (
            "{% for x in [1] %}{{ loop?.z }}|{{ loop.index }}{% endfor %}",
            "|0",
        ),
        ("{% for x in [] %}a{% endfor %}b", "b"),
        (
            "{% for x in xs %}{% for y in xs %}{{ x }}{{ y }}{% if loop.first %}-{% endif %}{% endfor %}{% endfor %}",
            "aa-abba-bb",
        ),
        (
            "{% with 1 as n %}{% with 2 as n %}{{ n }}{% endwith %}{{ n }}{% endwith %}{{ n }}",
            "215",
        ),
    ];
    all_answer(alloc, &Engine::new(alloc), &context(alloc)?, &rows)
}

// Values that a frame has, and what a loop says of itself: shown, tested, and put into lists.
#[test]
fn values_of_frames(rt: HostRuntime) -> std::result::Result<(), Fail> {
    let alloc = rt.alloc();
    let rows = [
        (
            "{% for x in [{\"a\": {\"b\": \"t\"} }] %}{{ x.a.b }}{% if x.a.b %}!{% endif %}{% endfor %}",
            "t!",
        ),
        (
            "{% for k, v in {\"a\": [1], \"b\": []} %}{{ k }}{% if v %}1{% endif %}{% endfor %}",
            "a1b",
        ),
        (
            "{% for k, v in {\"\": 1} %}{% if k %}a{% else %}b{% endif %}{% endfor %}",
            "b",
        ),
        (
            "{% for x in xs %}{% with {\"index\": 7} as loop %}{{ loop.index }}{% endwith %}{{ loop.index }}{% endfor %}",
            "7071",
        ),
        (
            "{% for x in xs %}{% for y in [x, loop.index] %}{{ y }}{{ loop.index }}{% endfor %};{% endfor %}",
            "a001;b011;",
        ),
        (
            "{% for k, v in m %}{% for x in [k, v] %}{{ x }}{% endfor %}{% endfor %}",
            "a2b1",
        ),
    ];
    all_answer(alloc, &Engine::new(alloc), &context(alloc)?, &rows)
}

#[test]
fn other_branches(rt: HostRuntime) -> std::result::Result<(), Fail> {
    let alloc = rt.alloc();
    let rows = [
        ("{% for x in [] %}{% else %}{% endfor %}", ""),
        ("{% for x in [] %}a{% else %}b{% endfor %}", "b"),
        ("{% for x in [1] %}a{% else %}b{% endfor %}", "a"),
        (
            "{% for x in [1, 2] %}{{ x }}{% else %}b{% endfor %}c",
            "12c",
        ),
        ("{% for k, v in {} %}{% else %}e{% endfor %}", "e"),
        (
            "{% for x in {} %}{% else %}e{% endfor %}",
            "render error: cannot unpack map item into one variable at 7..8",
        ),
        ("{% for n in [] %}{% else %}{{ n }}{% endfor %}", "5"),
        (
            "{% for y in [7, 8] %}{% for x in [] %}{% else %}{{ loop.index }}{% endfor %}{% endfor %}",
            "01",
        ),
        (
            "{% for x in [] %}{% else %}{% for y in [] %}{% else %}{% if n %}d{% else %}e{% endif %}{% endfor %}{% endfor %}",
            "d",
        ),
        (
            "{% for x in [] %}{% else if 1 %}{% endfor %}",
            "invalid syntax: unexpected `else if` block at 17..32",
        ),
        (
            "{% for x in [] %}{% else %}{% else %}{% endfor %}",
            "invalid syntax: unexpected `else` block at 27..37",
        ),
        (
            "{% for x in [] %}{% else %}{% else if 1 %}{% endfor %}",
            "invalid syntax: unexpected `else if` block at 27..42",
        ),
        (
            "{% for x in [] %}{% else %}",
            "invalid syntax: unclosed `for` block at 0..17",
        ),
        (
            "{% with 1 as x %}{% else %}{% endwith %}",
            "invalid syntax: unexpected `else` block at 17..27",
        ),
    ];
    all_answer(alloc, &Engine::new(alloc), &context(alloc)?, &rows)
}

// A context with an empty list and an empty map, and an engine with a template that shows `x`.
#[test]
fn other_branches_on_a_context(rt: HostRuntime) -> std::result::Result<(), Fail> {
    let alloc = rt.alloc();
    let mut engine = Engine::new(alloc);
    engine.add_template(CowStr::Borrowed("x"), CowStr::Borrowed("{{ x }}"))?;
    let context = value! { in alloc; x: 9, no_list: [], no_map: {}, ys: [1], n: 5 }?;
    let rows = [
        ("{% for x in [] %}{% else %}{{ x }}{% endfor %}", "9"),
        ("{% for x in no_list %}a{% else %}{{ x }}{% endfor %}", "9"),
        (
            "{% for x, v in no_map %}a{% else %}{{ x }}{% endfor %}",
            "9",
        ),
        (
            "{% for x in no_list -%} a {%- else -%} b {%- endfor %}",
            "b",
        ),
        (
            "{% for x in no_list %}a{% else %}{% include \"x\" %}{% endfor %}",
            "9",
        ),
        (
            "{% for x in ys %}{% include \"x\" %}{% else %}{% include \"zz\" %}{% endfor %}",
            "1",
        ),
        (
            "{% for k in no_map %}a{% else %}b{% endfor %}",
            "render error: cannot unpack map item into one variable at 7..8",
        ),
        (
            "{% for k, v in no_list %}a{% else %}b{% endfor %}",
            "render error: cannot unpack list item into two variables at 7..11",
        ),
        (
            "{% for k in n %}a{% else %}b{% endfor %}",
            "render error: expected iterable, but expression evaluated to integer at 12..13",
        ),
    ];
    all_answer(alloc, &engine, &context, &rows)
}

// Loops and ifs in each other, each with an `else`; `loop` in the branch is the loop around.
#[test]
fn other_branches_in_each_other(rt: HostRuntime) -> std::result::Result<(), Fail> {
    let alloc = rt.alloc();
    let rows = [
        (
            "{% if n %}{% for y in [] %}a{% else %}b{% endfor %}{% else %}c{% endif %}",
            "b",
        ),
        (
            "{% if not n %}a{% else %}{% for y in xs %}{% if loop.last %}{{ y }}{% else %}-{% endif %}{% else %}c{% endfor %}{% endif %}",
            "-b",
        ),
        (
            "{% for y in xs %}{% for z in [] %}a{% else %}{{ y }}{% endfor %}{% else %}c{% endfor %}",
            "ab",
        ),
        (
            "{% for y in xs %}{% for z in xs %}{{ y }}{{ z }}{% else %}c{% endfor %};{% else %}d{% endfor %}",
            "aaab;babb;",
        ),
        (
            "{% for y in [] %}a{% else %}{% if not n %}b{% else if x %}{% for k, v in m %}{{ k }}{% else %}c{% endfor %}{% else %}d{% endif %}{% endfor %}",
            "ab",
        ),
        (
            "{% for y in [7, 8] %}{% for z in [] %}{% else %}{{ loop.index }}{% if loop.last %}!{% else %},{% endif %}{% endfor %}{% endfor %}",
            "0,1!",
        ),
        (
            "{% for y in xs %}{% for z in {} %}{% else %}{% endfor %}{% else %}a{% endfor %}",
            "render error: cannot unpack map item into one variable at 24..25",
        ),
        (
            "{% for y in [] %}{% else %}{{ loop }}{% endfor %}",
            "render error: not found in this scope at 30..34",
        ),
    ];
    all_answer(alloc, &Engine::new(alloc), &context(alloc)?, &rows)
}

#[test]
fn faults(rt: HostRuntime) -> std::result::Result<(), Fail> {
    let alloc = rt.alloc();
    let rows = [
        (
            "{% for x in 5 %}{% endfor %}",
            "render error: expected iterable, but expression evaluated to integer at 12..13",
        ),
        (
            "{% for a, b in [1] %}{% endfor %}",
            "render error: cannot unpack list item into two variables at 7..11",
        ),
        (
            "{% for x in {\"k\": 1} %}{% endfor %}",
            "render error: cannot unpack map item into one variable at 7..8",
        ),
        (
            "{% for k, v in {\"b\": 1} %}{{ k.x }}{% endfor %}",
            "render error: cannot index into string at 30..32",
        ),
        (
            "{% for x in [1] %}{{ loop.index.y }}{% endfor %}",
            "render error: cannot index into integer at 31..33",
        ),
        (
            "{% for x in [1] %}{{ loop.0 }}{% endfor %}",
            "render error: cannot index into map with integer at 25..27",
        ),
        (
            "{% for x in xs %}{% endfor %}{{ loop }}",
            "render error: not found in this scope at 32..36",
        ),
    ];
    all_answer(alloc, &Engine::new(alloc), &context(alloc)?, &rows)
}
