// Literals, paths and conditions, and what they answer.
use std::alloc::Global;
use std::test::Fail;
use upon::{Engine, Result, Value, value};
use upon_examples::answers::all_answer;

fn context(alloc: Global) -> Result<Value> {
    value! { in alloc;
        name: "John",
        user: {name: "John Smith"},
        a: 1,
        yes: true,
        empty: "",
        list: [1],
        nothing: None,
        deep: [1, {b: true}],
    }
}

#[test]
fn paths(rt: HostRuntime) -> std::result::Result<(), Fail> {
    let alloc = rt.alloc();
    let rows = [
        ("Hello {{ user.name }}!", "Hello John Smith!"),
        ("", ""),
        ("{{ a }}}", "1}"),
        ("{{ deep.1.b }}", "true"),
        ("{{ nothing }}", ""),
        ("{{ ?.z }}", ""),
        ("{{ user?.z.y }}", ""),
        // Names that lie in the path (of at most 16 bytes), and one that does not.
        (
            "{% with {\"sixteen_letters_\": {\"seventeen_letters\": 2} } as m %}{{ m.sixteen_letters_.seventeen_letters }}{% endwith %}",
            "2",
        ),
        (
            "{% with {\"seventeen_letters\": 2} as m %}{{ m.seventeen_letter_ }}{% endwith %}",
            "render error: not found in map at 44..62",
        ),
        (
            "{{ list.5 }}",
            "render error: index out of bounds, the length is 1 at 7..9",
        ),
        ("{{ z }}", "render error: not found in this scope at 3..4"),
        ("{{ user.z }}", "render error: not found in map at 7..9"),
        (
            "{{ name.x }}",
            "render error: string does not support key-based access at 7..9",
        ),
        (
            "{{ a.0 }}",
            "render error: integer does not support integer-based access at 4..6",
        ),
        (
            "{{ list }}",
            "format error: expression evaluated to unformattable type list at 3..7",
        ),
    ];
    all_answer(alloc, &Engine::new(alloc), &context(alloc)?, &rows)
}

#[test]
fn literals(rt: HostRuntime) -> std::result::Result<(), Fail> {
    let alloc = rt.alloc();
    let rows = [
        ("{{ \"\\\\\" }}", "\\"),
        ("{{ \"}}\" }}", "}}"),
        ("a  {{- 1 -}}  b", "a1b"),
        ("{{ -9223372036854775808 }}", "-9223372036854775808"),
        ("{{ - 5 }}{{ 0x }}", "-50"),
        ("{{ 0b101 }}{{ 0o17 }}{{ 0xFf }}{{ 1_000 }}", "5152551000"),
        ("{{ true }}{{ false }}{{ (1) }}", "truefalse1"),
        (
            "{{ {\"a\": {\"b\": 1} } }}",
            "format error: expression evaluated to unformattable type map at 3..19",
        ),
        (
            "{% with {\"a\": 1, \"a\": 2} as m %}{{ m.a }}{% endwith %}",
            "2",
        ),
        ("{% with [1, [2, 3]] as l %}{{ l.1.0 }}{% endwith %}", "2"),
        ("{# if #}x {#- y -#} z", "xz"),
    ];
    all_answer(alloc, &Engine::new(alloc), &Value::None, &rows)
}

#[test]
fn conditions(rt: HostRuntime) -> std::result::Result<(), Fail> {
    let alloc = rt.alloc();
    let rows = [
        ("{% if not a %}x{% else %}y{% endif %}", "y"),
        (
            "Hello,\n  {%- if yes %} and welcome, {% endif -%}\n  {{ name }}!",
            "Hello, and welcome, John!",
        ),
        ("{% if [] %}a{% else if \"x\" %}b{% endif %}", "b"),
        ("{% if 1 %}a{% else %}b{% endif %}", "a"),
        (
            "{% if 0 %}a{% else if \"\" %}b{% else if {} %}c{% else %}d{% endif %}",
            "d",
        ),
        ("{% if nothing %}a{% endif %}", ""),
        ("{% if not empty %}a{% endif %}", "a"),
        (
            "{% if list %}{% if not list %}a{% else %}b{% endif %}{% endif %}",
            "b",
        ),
        (
            "{% if z %}{% endif %}",
            "render error: not found in this scope at 6..7",
        ),
    ];
    all_answer(alloc, &Engine::new(alloc), &context(alloc)?, &rows)
}

#[test]
fn refused_texts(rt: HostRuntime) -> std::result::Result<(), Fail> {
    let alloc = rt.alloc();
    let rows = [
        (
            "{#}",
            "invalid syntax: expected end comment, found EOF at 3..3",
        ),
        (
            "{##}",
            "invalid syntax: expected raw template, found end comment at 2..4",
        ),
        ("{{ \"a", "invalid syntax: undelimited string at 3..5"),
        ("{{ 5-}}", "invalid syntax: invalid float literal at 3..5"),
        (
            "{{ {\"a\": {\"b\": 1}} }}",
            "invalid syntax: unclosed open brace at 9..10",
        ),
        (
            "a }} b",
            "invalid syntax: unexpected end expression at 2..4",
        ),
        (
            "{{ \"a\\q\" }}",
            "invalid syntax: unknown escape character at 6..7",
        ),
        (
            "{{ a b \"c",
            "invalid syntax: expected end expression, found identifier at 5..6",
        ),
        (
            "{% else %}",
            "invalid syntax: unexpected `else` block at 0..10",
        ),
        (
            "{% if 1 %}{% if 2 %}",
            "invalid syntax: unclosed `if` block at 0..10",
        ),
        (
            "{% for x as [1] %}",
            "invalid syntax: expected keyword `in`, found keyword `as` at 9..11",
        ),
        ("{{ ? }}", "invalid syntax: unexpected character at 3..5"),
    ];
    all_answer(alloc, &Engine::new(alloc), &Value::None, &rows)
}

// Sources on contexts that have few names.
#[test]
fn contexts_of_few_names(rt: HostRuntime) -> std::result::Result<(), Fail> {
    let alloc = rt.alloc();
    let engine = Engine::new(alloc);
    let list = [
        (
            "{{ a.5 }}",
            "render error: index out of bounds, the length is 1 at 4..6",
        ),
        (
            "{{ a }}",
            "format error: expression evaluated to unformattable type list at 3..4",
        ),
        ("{{ ?.b }}", ""),
        (
            "{{ -0b2 }}",
            "invalid syntax: invalid digit for base 2 literal at 6..7",
        ),
        ("{{ 1.5 }}", "invalid syntax: invalid float literal at 3..6"),
        ("{{\n", "invalid syntax: expected token, found EOF at 3..3"),
    ];
    all_answer(alloc, &engine, &value! { in alloc; a: [1] }?, &list)?;
    let welcome = [(
        "Hello,\n  {%- if a %} and welcome, {% endif -%}\n  {{ name }}!",
        "Hello, and welcome, John!",
    )];
    let context = value! { in alloc; a: true, name: "John" }?;
    all_answer(alloc, &engine, &context, &welcome)?;
    let one = [("{{ a }}", "1")];
    all_answer(alloc, &engine, &value! { in alloc; a: 1, b: 2 }?, &one)?;
    all_answer(alloc, &engine, &value! { in alloc; a: 1, c: 3 }?, &one)
}
