// What paths find in contexts, loops and frames, and what a source of values is asked.
ghost use Rattle.std.specs.Prelude.{◌≡◌, map, IsTrue};
ghost use Rattle.upon_types.specs.AstPath.{member_of, loop_vars_of};
ghost use Rattle.upon_types.specs.Span.{LiesIn};
ghost use Rattle.upon_render.specs.Loop.{names_span};
ghost use Rattle.upon_render.specs.PathSpans.{MembersLieIn};

use std::alloc::{AllocError, Global};
use std::collections::BTreeMap;
use std::process::Abort;
use std::test::Fail;
use upon_lookup::source::ValueSource;
use upon_render::iter::LoopState;
use upon_render::stack::{Stack, State};
use upon_types::error;
use upon_types::types::Span;
use upon_types::types::ast::{Access, AccessOp, Ident, Index, KeyValue, LoopVars, Member, Name, Var};
use upon_types::value::{Value, ValueCow};

// A member of a path, by its operator and its name or number.
pub type Part<'a> = (AccessOp, &'a str);

pub const DOT: AccessOp = AccessOp::Direct;

pub const MAYBE: AccessOp = AccessOp::Optional;

// What is looked up in a source from an offset on, and what is reported of it.
pub type Row<'a> = (&'a str, usize, &'a [Part<'a>], &'a str);

// ---- fixtures
pub fn ident(alloc: Global, name: &str, m: usize) -> Result<Ident, AllocError> {
    Ok(Ident {
        name: Name::from_str(alloc, name)?,
        span: Span {
            m,
            n: m.saturating_add(name.len()),
        },
    })
}

// A member that begins at an offset, with its operator unless it is the first.
fn member(alloc: Global, part: Part, m: usize, is_first: bool) -> Result<Member, AllocError> {
    let (op, name) = part;
    let width = match op {
        AccessOp::Direct => 1,
        AccessOp::Optional => 2,
    };
    let start = if is_first { m } else { m.saturating_add(width) };
    let ident = ident(alloc, name, start)?;
    let span = Span { m, n: ident.span.n };
    let access = match name.parse::<usize>() {
        Ok(value) => Access::Index(Index {
            value,
            span: ident.span,
        }),
        Err(_) => Access::Key(ident),
    };
    Ok(Member { op, access, span })
}

pub fn path(alloc: Global, m: usize, parts: &[Part]) -> Result<Vec<Member>, AllocError> {
    let mut path = Vec::new(alloc);
    let mut at = m;
    for part in parts {
        let member = member(alloc, *part, at, path.is_empty())?;
        at = member.span.n;
        path.push(member)?;
    }
    Ok(path)
}

fn text(alloc: Global, text: &str) -> Result<Value, AllocError> {
    Value::from_text(alloc, text)
}

fn list(alloc: Global, items: [Value; 2]) -> Result<Value, AllocError> {
    Ok(Value::List(Vec::from_array(alloc, items)?))
}

// A map of one entry, to which others may be added.
pub fn entry(
    alloc: Global,
    key: &str,
    value: Value,
) -> Result<BTreeMap<String, Value>, AllocError> {
    let mut entries = BTreeMap::new(alloc);
    put(alloc, &mut entries, key, value)?;
    Ok(entries)
}

fn put(
    alloc: Global,
    entries: &mut BTreeMap<String, Value>,
    key: &str,
    value: Value,
) -> Result<(), AllocError> {
    drop(entries.insert(String::from_str(alloc, key)?, value)?);
    Ok(())
}

// ---- spans that are tested before they are handed in
fn lies_in(source: &str, span: Span) -> bool
    ensures { IsTrue result → LiesIn source.now span }
{
    span.m <= span.n && source.is_char_boundary(span.m) && source.is_char_boundary(span.n)
}

pub fn all_lie_in(source: &str, path: &[Member]) -> bool
    ensures { IsTrue result → MembersLieIn source.now (map member_of path.now) }
{
    match path {
        [] => true,
        [first, rest @ ..] => lies_in(source, first.span) && all_lie_in(source, rest),
    }
}

fn names_place(vars: &LoopVars) -> Span
    ensures { result ≡ names_span (loop_vars_of vars.now) }
{
    match vars {
        LoopVars::Item(name) => name.span,
        LoopVars::KeyValue(both) => both.span,
    }
}

// ---- what is reported
pub fn shown(alloc: Global, found: error::Result<ValueCow<'_>>) -> Result<String, AllocError> {
    match found {
        Ok(value) => {
            let value: &Value = &value;
            format!(in alloc; "{value:?}")
        }
        Err(error) => {
            let span = error.place().unwrap_or(Span { m: 0, n: 0 });
            format!(in alloc; "{error} {}..{}", span.m, span.n)
        }
    }
}

// What the path finds in the stack.
fn look_up<V: ValueSource>(
    rt: &impl Abort,
    alloc: Global,
    stack: &mut Stack<'_, V>,
    source: &str,
    m: usize,
    parts: &[Part],
) -> Result<String, Fail> {
    let path = path(alloc, m, parts)?;
    assert!(rt; path.len() > 0);
    let var = Var { path };
    assert!(rt; lies_in(source, var.first().span));
    assert!(rt; all_lie_in(source, var.rest()));
    Ok(shown(alloc, stack.lookup_var(source, &var))?)
}

pub fn all_found<V: ValueSource>(
    rt: &impl Abort,
    alloc: Global,
    stack: &mut Stack<'_, V>,
    rows: &[Row],
) -> Result<(), Fail> {
    for (source, m, parts, wanted) in rows {
        let found = look_up(rt, alloc, stack, source, *m, parts)?;
        assert_eq!(rt; found.as_str(), *wanted, "of {source} at {m}");
    }
    Ok(())
}

#[test]
fn in_contexts(rt: HostRuntime) -> Result<(), Fail> {
    let alloc = rt.alloc();
    let user = entry(alloc, "name", text(alloc, "John Smith")?)?;
    let mut entries = entry(alloc, "user", Value::Map(user))?;
    let xs = list(alloc, [text(alloc, "a")?, text(alloc, "b")?])?;
    put(alloc, &mut entries, "xs", xs)?;
    put(alloc, &mut entries, "n", Value::Integer(5))?;
    let context = Value::Map(entries);
    let mut stack = Stack::new(alloc, &context)?;
    let rows: [Row; 4] = [
        (
            "Hello {{ user.name }}!",
            9,
            &[(DOT, "user"), (DOT, "name")],
            "String(\"John Smith\")",
        ),
        (
            "é\n{{ x }}",
            6,
            &[(DOT, "x")],
            "render error: not found in this scope 6..7",
        ),
        (
            "{{ user?.nick }}",
            3,
            &[(DOT, "user"), (MAYBE, "nick")],
            "None",
        ),
        (
            "{{ user.nick }}",
            3,
            &[(DOT, "user"), (DOT, "nick")],
            "render error: not found in map 7..12",
        ),
    ];
    all_found(&rt, alloc, &mut stack, &rows)
}

// ---- loops
// A loop over these items, before the first one.
pub fn over<'a>(
    rt: &impl Abort,
    alloc: Global,
    source: &str,
    vars: &'a LoopVars,
    iterable: ValueCow<'a>,
    span: Span,
) -> error::Result<LoopState<'a>> {
    assert!(rt; lies_in(source, span));
    assert!(rt; lies_in(source, names_place(vars)));
    LoopState::new(alloc, source, vars, iterable, span)
}

// A loop at its item of this number, counted from 1.
pub fn at_item<'a>(
    rt: &impl Abort,
    alloc: Global,
    vars: &'a LoopVars,
    iterable: ValueCow<'a>,
    number: u32,
) -> error::Result<LoopState<'a>> {
    let source = "{% for k, v in m %}";
    let mut state = over(rt, alloc, source, vars, iterable, Span { m: 15, n: 16 })?;
    for _ in 0..number {
        assert!(rt; state.iterate().is_some());
    }
    Ok(state)
}

pub fn one_name(alloc: Global, name: &str) -> Result<LoopVars, AllocError> {
    Ok(LoopVars::Item(ident(alloc, name, 7)?))
}

fn two_names(alloc: Global, key: &str, value: &str) -> Result<LoopVars, AllocError> {
    Ok(LoopVars::KeyValue(KeyValue {
        key: ident(alloc, key, 7)?,
        value: ident(alloc, value, 10)?,
        span: Span { m: 7, n: 11 },
    }))
}

pub fn numbers(alloc: Global, first: i64, second: i64) -> Result<Value, AllocError> {
    list(alloc, [Value::Integer(first), Value::Integer(second)])
}

// What the rows say in a loop at its item of this number, over a context.
fn in_loop(
    rt: &impl Abort,
    alloc: Global,
    context: &Value,
    vars: &LoopVars,
    iterable: &Value,
    number: u32,
    rows: &[Row],
) -> Result<(), Fail> {
    let mut stack = Stack::new(alloc, context)?;
    let state = at_item(rt, alloc, vars, ValueCow::Borrowed(iterable), number)?;
    stack.push(State::Loop(state))?;
    all_found(rt, alloc, &mut stack, rows)
}

#[test]
fn in_loops_over_lists(rt: HostRuntime) -> Result<(), Fail> {
    let alloc = rt.alloc();
    let context = Value::Map(entry(alloc, "y", Value::Integer(9))?);
    let vars = one_name(alloc, "x")?;
    let items = numbers(alloc, 1, 2)?;
    let first: [Row; 8] = [
        ("{{ x }}", 3, &[(DOT, "x")], "Integer(1)"),
        ("{{ y }}", 3, &[(DOT, "y")], "Integer(9)"),
        (
            "{{ loop.first }}",
            3,
            &[(DOT, "loop"), (DOT, "first")],
            "Bool(true)",
        ),
        (
            "{{ loop.last }}",
            3,
            &[(DOT, "loop"), (DOT, "last")],
            "Bool(false)",
        ),
        (
            "{% for x in [1] %}{{ loop?.z }}|",
            21,
            &[(DOT, "loop"), (MAYBE, "z")],
            "None",
        ),
        (
            "{{ loop.z }}",
            3,
            &[(DOT, "loop"), (DOT, "z")],
            "render error: not found in map 7..9",
        ),
        (
            "{{ loop?.0 }}",
            3,
            &[(DOT, "loop"), (MAYBE, "0")],
            "render error: cannot index into map with integer 7..10",
        ),
        (
            "{{ loop?.z?.y }}",
            3,
            &[(DOT, "loop"), (MAYBE, "z"), (MAYBE, "y")],
            "render error: cannot index into none 10..13",
        ),
    ];
    in_loop(&rt, alloc, &context, &vars, &items, 1, &first)?;
    let second: [Row; 4] = [
        ("{{ x }}", 3, &[(DOT, "x")], "Integer(2)"),
        (
            "{{ loop.index }}",
            3,
            &[(DOT, "loop"), (DOT, "index")],
            "Integer(1)",
        ),
        (
            "{{ loop.last }}",
            3,
            &[(DOT, "loop"), (DOT, "last")],
            "Bool(true)",
        ),
        (
            "{% for x in [1] %}{{ loop.index.y }}{% endfor %}",
            21,
            &[(DOT, "loop"), (DOT, "index"), (DOT, "y")],
            "render error: cannot index into integer 31..33",
        ),
    ];
    in_loop(&rt, alloc, &context, &vars, &items, 2, &second)
}

#[test]
fn a_name_called_loop(rt: HostRuntime) -> Result<(), Fail> {
    let alloc = rt.alloc();
    let vars = one_name(alloc, "loop")?;
    let rows: [Row; 1] = [(
        "{% for loop in [7] %}{{ loop.last }}{% endfor %}",
        24,
        &[(DOT, "loop"), (DOT, "last")],
        "Bool(true)",
    )];
    in_loop(
        &rt,
        alloc,
        &Value::None,
        &vars,
        &numbers(alloc, 7, 7)?,
        2,
        &rows,
    )
}

#[test]
fn a_miss_stays_in_the_loop(rt: HostRuntime) -> Result<(), Fail> {
    let alloc = rt.alloc();
    let context = Value::Map(entry(
        alloc,
        "x",
        Value::Map(entry(alloc, "b", Value::Integer(9))?),
    )?);
    let item = Value::Map(entry(alloc, "a", Value::Integer(1))?);
    let items = list(alloc, [item, Value::None])?;
    let vars = one_name(alloc, "x")?;
    let rows: [Row; 1] = [("{{ x?.b }}", 3, &[(DOT, "x"), (MAYBE, "b")], "None")];
    in_loop(&rt, alloc, &context, &vars, &items, 1, &rows)
}

#[test]
fn in_loops_over_maps(rt: HostRuntime) -> Result<(), Fail> {
    let alloc = rt.alloc();
    let mut entries = entry(alloc, "b", Value::Integer(1))?;
    put(alloc, &mut entries, "a", Value::Integer(2))?;
    let entries = Value::Map(entries);
    let vars = two_names(alloc, "k", "v")?;
    let first: [Row; 3] = [
        ("{{ k }}", 3, &[(DOT, "k")], "String(\"a\")"),
        ("{{ v }}", 3, &[(DOT, "v")], "Integer(2)"),
        (
            "{% for k, v in {\"b\": 1} %}{{ k.x }}{% endfor %}",
            29,
            &[(DOT, "k"), (DOT, "x")],
            "render error: cannot index into string 30..32",
        ),
    ];
    in_loop(&rt, alloc, &Value::None, &vars, &entries, 1, &first)?;
    let second: [Row; 2] = [
        ("{{ k }}", 3, &[(DOT, "k")], "String(\"b\")"),
        ("{{ v }}", 3, &[(DOT, "v")], "Integer(1)"),
    ];
    in_loop(&rt, alloc, &Value::None, &vars, &entries, 2, &second)?;
    let same = two_names(alloc, "a", "a")?;
    let key: [Row; 1] = [("{{ a }}", 3, &[(DOT, "a")], "String(\"a\")")];
    in_loop(&rt, alloc, &Value::None, &same, &entries, 1, &key)
}

// The loop is refused, for this reason.
fn refused(
    rt: &impl Abort,
    alloc: Global,
    source: &str,
    vars: &LoopVars,
    iterable: Value,
    wanted: &str,
) -> Result<(), Fail> {
    let span = Span { m: 12, n: 13 };
    match over(rt, alloc, source, vars, ValueCow::Owned(iterable), span) {
        Ok(_) => panic!(rt; "{source}"),
        Err(error) => assert_eq!(rt; shown(alloc, Err(error))?.as_str(), wanted, "of {source}"),
    }
    Ok(())
}

#[test]
fn refused_loops(rt: HostRuntime) -> Result<(), Fail> {
    let alloc = rt.alloc();
    refused(
        &rt,
        alloc,
        "{% for x in 5 %}{% endfor %}",
        &one_name(alloc, "x")?,
        Value::Integer(5),
        "render error: expected iterable, but expression evaluated to integer 12..13",
    )?;
    refused(
        &rt,
        alloc,
        "{% for a, b in [1] %}{% endfor %}",
        &two_names(alloc, "a", "b")?,
        numbers(alloc, 1, 1)?,
        "render error: cannot unpack list item into two variables 7..11",
    )?;
    refused(
        &rt,
        alloc,
        "{% for x in {\"k\": 1} %}{% endfor %}",
        &one_name(alloc, "x")?,
        Value::Map(entry(alloc, "k", Value::Integer(1))?),
        "render error: cannot unpack map item into one variable 7..8",
    )
}

// ---- names, scopes and boundaries
// A name over a loop over a context, and then a scope of its own.
fn names_and_boundaries(
    rt: &impl Abort,
    alloc: Global,
    context: &Value,
    items: &Value,
    vars: &LoopVars,
    name: &Ident,
) -> Result<(), Fail> {
    let mut stack = Stack::new(alloc, context)?;
    let state = at_item(rt, alloc, vars, ValueCow::Borrowed(items), 1)?;
    stack.push(State::Loop(state))?;
    stack.push(State::Var(name, ValueCow::Owned(Value::Integer(8))))?;
    let seen: [Row; 3] = [
        ("{{ loop }}", 3, &[(DOT, "loop")], "Integer(8)"),
        ("{{ x }}", 3, &[(DOT, "x")], "Integer(3)"),
        ("{{ a }}", 3, &[(DOT, "a")], "Integer(1)"),
    ];
    all_found(rt, alloc, &mut stack, &seen)?;
    stack.push(State::Boundary)?;
    stack.push(State::Scope(ValueCow::Owned(Value::Integer(5))))?;
    let hidden: [Row; 3] = [
        (
            "{{ loop }}",
            3,
            &[(DOT, "loop")],
            "render error: not found in this scope 3..7",
        ),
        (
            "{{ x }}",
            3,
            &[(DOT, "x")],
            "render error: not found in this scope 3..4",
        ),
        (
            "{{ a }}",
            3,
            &[(DOT, "a")],
            "render error: not found in this scope 3..4",
        ),
    ];
    all_found(rt, alloc, &mut stack, &hidden)
}

#[test]
fn scopes(rt: HostRuntime) -> Result<(), Fail> {
    let alloc = rt.alloc();
    let context = Value::Map(entry(alloc, "a", Value::Integer(1))?);
    let items = numbers(alloc, 3, 4)?;
    let vars = one_name(alloc, "x")?;
    let name = ident(alloc, "loop", 7)?;
    names_and_boundaries(&rt, alloc, &context, &items, &vars, &name)
}
