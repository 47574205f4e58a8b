// Templates under delimiters of one's own.
use std::alloc::Global;
use std::borrow::CowStr;
use std::test::Fail;
use upon::{Engine, Syntax, Value, value};
use upon_examples::answers::all_answer;

// Each source answers so under a syntax, on a context.
fn under(
    alloc: Global,
    syntax: Syntax,
    context: &Value,
    rows: &[(&str, &str)],
) -> Result<(), Fail> {
    let mut engine = Engine::new(alloc);
    engine.set_syntax(syntax);
    all_answer(alloc, &engine, context, rows)
}

#[test]
fn expressions_alone(rt: HostRuntime) -> Result<(), Fail> {
    let alloc = rt.alloc();
    let context = value! { in alloc; a: 1 }?;
    let same = [
        (
            "%% a %%",
            "invalid syntax: unclosed begin expression at 0..2",
        ),
        ("%% a -%%", "1"),
    ];
    under(
        alloc,
        Syntax::builder().expr("%%", "%%").build(alloc)?,
        &context,
        &same,
    )?;
    let blank = [("<% 1 %>   <%- 2 %> ", "12")];
    under(
        alloc,
        Syntax::builder().expr("<%", "%> ").build(alloc)?,
        &context,
        &blank,
    )
}

#[test]
fn overlapping_expressions(rt: HostRuntime) -> Result<(), Fail> {
    let alloc = rt.alloc();
    let context = value! { in alloc; a: 1 }?;
    let longer = [
        ("< a <<", "1"),
        ("<<", "invalid syntax: unexpected end expression at 0..2"),
        (
            "a < b",
            "invalid syntax: expected end expression, found EOF at 5..5",
        ),
    ];
    under(
        alloc,
        Syntax::builder().expr("<", "<<").build(alloc)?,
        &context,
        &longer,
    )?;
    let hyphens = [
        ("- 1 --", "1"),
        ("- 1 ---", "1"),
        ("--", "invalid syntax: unexpected end expression at 0..2"),
    ];
    under(
        alloc,
        Syntax::builder().expr("-", "--").build(alloc)?,
        &context,
        &hyphens,
    )?;
    let before = [("a  < 1 >", "a 1"), ("a  <- 1 >", "a1")];
    under(
        alloc,
        Syntax::builder().expr(" <", ">").build(alloc)?,
        &context,
        &before,
    )
}

#[test]
fn blocks_and_expressions(rt: HostRuntime) -> Result<(), Fail> {
    let alloc = rt.alloc();
    let context = value! { in alloc; a: 1, u: 1 }?;
    let syntax = Syntax::builder()
        .expr("<{", "}>")
        .block("<[", "]>")
        .build(alloc)?;
    let brackets = [("<[ if a ]><{ a }><[ endif ]>{{ a }}", "1{{ a }}")];
    under(alloc, syntax, &context, &brackets)?;
    let syntax = Syntax::builder()
        .expr("<?", "?>")
        .block("((", "))")
        .build(alloc)?;
    let parentheses = [("(( if u ))<? u ?>(( endif ))", "1")];
    under(alloc, syntax, &context, &parentheses)?;
    let none = [("{{ a }}", "{{ a }}")];
    under(alloc, Syntax::builder().build(alloc)?, &context, &none)?;
    let syntax = Syntax::builder()
        .expr("{{", "}}")
        .block("{{", "}}")
        .build(alloc)?;
    let equal = [(
        "{{ if 1 }}",
        "invalid syntax: unexpected keyword `if` at 3..5",
    )];
    under(alloc, syntax, &context, &equal)
}

// A template keeps the syntax under which it was added.
#[test]
fn an_included_template_under_its_own(rt: HostRuntime) -> Result<(), Fail> {
    let alloc = rt.alloc();
    let mut engine = Engine::new(alloc);
    engine.add_template(CowStr::Borrowed("t"), CowStr::Borrowed("{{ 1 }}<< 2 >>"))?;
    engine.set_syntax(
        Syntax::builder()
            .expr("<<", ">>")
            .block("<%", "%>")
            .build(alloc)?,
    );
    let rows = [("<% include \"t\" %>|<< 3 >>{{ 4 }}", "1<< 2 >>|3{{ 4 }}")];
    all_answer(alloc, &engine, &Value::None, &rows)
}

#[test]
fn a_built_syntax_is_the_default(rt: HostRuntime) -> Result<(), Fail> {
    let alloc = rt.alloc();
    let mut builder = Syntax::builder();
    builder.expr("a", "b");
    builder
        .expr("{{", "}}")
        .block("{%", "%}")
        .comment("{#", "#}");
    assert!(&rt; builder.build(alloc)? == Syntax::default());
    Ok(())
}
