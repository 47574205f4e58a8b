// `upon::types::ast`: the tree of a template.
use std::alloc::Global;
use std::test::Fail;
use upon::compile::parse::Parser;
use upon::compile::search::Searcher;
use upon::types::ast::{
    Args, BaseExpr, Call, Expr, Filter, ForLoop, Ident, IfElse, Include, InlineExpr, List, LoopVars,
    Map, Paren, Scope, Stmt, String, Template, With,
};
use upon::types::Span;

// Every kind of statement and of expression, each once at least.
const ALL: &str = "a{{ b }}{% include \"c\" with {\"k\": v} %}{% include \"d\" %}{% if not e %}f{% else %}g{% endif %}\
{% for h in [i, 1] %}j{% else %}k{% endfor %}{% for l, m in n %}{% endfor %}{% with (o) as p %}q{% endwith %}\
{{ r | s: t }}{{ u() }}{{ w | x }}";

pub fn parse_template(parser: Parser) -> upon::Result<Template> {
    parser.parse_template()
}

// The tree. Each function counts the parts that it reads, so that each field is read.
pub fn no_statements(alloc: Global) -> Scope {
    Scope::new(alloc)
}

fn bytes(span: Span) -> usize {
    span.n - span.m
}

fn name(ident: &Ident) -> usize {
    ident.name.as_str().len()
}

fn text(text: &String) -> usize {
    text.as_str().len()
}

fn names(vars: &LoopVars) -> usize {
    match vars {
        LoopVars::Item(item) => name(item),
        LoopVars::KeyValue(names) => name(&names.key) + name(&names.value),
    }
}

pub fn template(template: &Template) -> usize {
    scope(&template.scope)
}

fn scope(scope: &Scope) -> usize {
    let mut count = 0;
    for stmt in &scope.stmts {
        count += statement(stmt);
    }
    count
}

fn other_scope(other: &Option<Scope>) -> usize {
    match other {
        Some(branch) => scope(branch),
        None => 0,
    }
}

fn statement(stmt: &Stmt) -> usize {
    match stmt {
        Stmt::Raw(span) => bytes(*span),
        Stmt::InlineExpr(shown) => inline_expr(shown),
        Stmt::Include(shown) => include(shown),
        Stmt::IfElse(choice) => if_else(choice),
        Stmt::ForLoop(each) => for_loop(each),
        Stmt::With(named) => with(named),
    }
}

fn inline_expr(shown: &InlineExpr) -> usize {
    expr(&shown.expr) + bytes(shown.span)
}

fn include(shown: &Include) -> usize {
    let seen = match &shown.globals {
        Some(globals) => expr(globals),
        None => 0,
    };
    text(&shown.name) + seen
}

fn if_else(choice: &IfElse) -> usize {
    let negated = if choice.not { 1 } else { 0 };
    negated
        + expr(&choice.cond)
        + scope(&choice.then_branch)
        + other_scope(&choice.else_branch)
}

fn for_loop(each: &ForLoop) -> usize {
    names(&each.vars) + expr(&each.iterable) + scope(&each.body) + other_scope(&each.else_branch)
}

fn with(named: &With) -> usize {
    expr(&named.expr) + name(&named.name) + scope(&named.body)
}

fn expr(given: &Expr) -> usize {
    let whole = bytes(given.span());
    match given {
        Expr::Base(base) => whole + base_expr(base),
        Expr::Filter(filter) => whole + filtered(filter),
    }
}

fn base_expr(given: &BaseExpr) -> usize {
    let whole = bytes(given.span());
    match given {
        BaseExpr::Var(var) => whole + var.path.len(),
        BaseExpr::Literal(literal) => whole + bytes(literal.span),
        BaseExpr::List(items) => whole + list(items),
        BaseExpr::Map(entries) => whole + map(entries),
        BaseExpr::Paren(inner) => whole + paren(inner),
        BaseExpr::Call(function) => whole + call(function),
    }
}

fn filtered(filter: &Filter) -> usize {
    name(&filter.name) + args(&filter.args) + expr(&filter.receiver) + bytes(filter.span)
}

fn list(list: &List) -> usize {
    let mut count = bytes(list.span);
    for item in &list.items {
        count += base_expr(item);
    }
    count
}

fn map(map: &Map) -> usize {
    let mut count = bytes(map.span);
    for (key, value) in &map.items {
        count += text(key) + base_expr(value);
    }
    count
}

fn paren(paren: &Paren) -> usize {
    expr(&paren.expr) + bytes(paren.span)
}

fn call(call: &Call) -> usize {
    name(&call.name) + args(&call.args) + bytes(call.span)
}

fn args(given: &Option<Args>) -> usize {
    let Some(args) = given else {
        return 0;
    };
    let mut count = bytes(args.span);
    for value in &args.values {
        count += base_expr(value);
    }
    count
}

#[test]
fn trees(rt: HostRuntime) -> std::result::Result<(), Fail> {
    let alloc = rt.alloc();
    let scope = no_statements(alloc);
    assert_eq!(rt; template(&Template { scope }), 0);
    let searcher = Searcher::new();
    assert_eq!(rt; template(&parse_template(Parser::new(alloc, &searcher, "abc"))?), 3);
    let tree = parse_template(Parser::new(alloc, &searcher, ALL))?;
    assert_eq!(rt; tree.scope.stmts.len(), 11);
    assert!(rt; template(&tree) > 0);
    Ok(())
}
