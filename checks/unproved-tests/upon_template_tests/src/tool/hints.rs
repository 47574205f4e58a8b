// What is said below the pictures of faults to those who write another language's templates.
use crate::tool::checks::all_known;
use crate::tool::libraries::library;
use std::alloc::{AllocError, Global};
use std::borrow::CowStr;
use std::test::Fail;
use upon::Engine;
use upon_tool_pages::check::check_text;

// The hint for a text, or nothing.
fn hint(alloc: Global, source: &str) -> Result<String, AllocError> {
    let mut engine = Engine::new(alloc);
    let library = library(alloc, &mut engine, [].as_slice())?;
    let mut err = Vec::new(alloc);
    let source = CowStr::Borrowed(source);
    check_text(alloc, &engine, &library, "page", source, &all_known(), &mut err)?;
    let said = String::from_utf8_lossy(alloc, err.as_slice())?;
    match said.as_str().rsplit_once("\n   = hint: ") {
        Some((_, hint)) => String::from_str(alloc, hint.trim_end()),
        None => Ok(String::new(alloc)),
    }
}

// Whether the hint for each of these texts has these words; for no words, that there is none.
fn all_hinted(alloc: Global, rows: &[(&str, &str)]) -> Result<String, AllocError> {
    let mut wrong = String::new(alloc);
    for (source, wanted) in rows {
        let hint = hint(alloc, source)?;
        if hint.is_empty() != wanted.is_empty() || !hint.contains(*wanted) {
            wrong.push_str(source)?;
            wrong.push_str(": ")?;
            wrong.push_str(hint.as_str())?;
            wrong.push('\n')?;
        }
    }
    Ok(wrong)
}

#[test]
fn blocks(rt: HostRuntime) -> Result<(), Fail> {
    let wrong = all_hinted(
        rt.alloc(),
        &[
            ("{% if a %}{% elif b %}{% endif %}", "`else if`"),
            ("{% if a %}{%- elsif b %}{% endif %}", "`else if`"),
            ("é{% set x = 1 %}", "{% with VALUE as NAME %}"),
            ("{% assign x = 1 %}", "{% with VALUE as NAME %}"),
            ("{% with x = 1 %}", "{% with VALUE as NAME %}"),
            ("{% extends \"base\" %}", "no inheritance"),
            ("{% block body %}", "no inheritance"),
            ("{% raw %}", "a delimiter"),
            ("{% macro f(a) %}", "{% include"),
            ("{% import \"x\" as y %}", "{% include"),
            ("{% include part %}", "{% include"),
            ("{% include \"a\" with x=1 %}", "{% include"),
            ("{% unless a %}", "{% if not a %}"),
            ("{% case a %}", "{% else %}"),
            ("{% if a %}{% end %}", "{% endif %}"),
            ("{% range xs %}", "{% for x in list %}"),
            ("{% for x of xs %}", "{% for x in list %}"),
            ("{% for (k, v) in m %}", "{% for key, value in map %}"),
            ("{% comment %}", "{# .. #}"),
            ("{{#if a}}", "{% if a %}"),
            ("{{/if}}", "{% endif %}"),
            ("{{> part}}", "{% include"),
            ("{{ if a }}", "for blocks"),
            ("{% frob %}", ""),
            ("{% endif %}", ""),
        ],
    )?;
    assert_eq!(&rt; wrong.as_str(), "");
    Ok(())
}

#[test]
fn values(rt: HostRuntime) -> Result<(), Fail> {
    let wrong = all_hinted(
        rt.alloc(),
        &[
            ("{% if a == b %}", "eq(a, b)"),
            ("{% if a >= 1 %}", "eq(a, b)"),
            ("{% if a and b %}", "`and`"),
            ("{% if a && b %}", "`and`"),
            ("{% if a || b %}", "`or`"),
            ("{% if !a %}", "`not`"),
            ("{{ not a }}", "alone"),
            ("{% if a is defined %}", "`a?.b`"),
            ("{{ a ?? b }}", "`a?.b`"),
            ("{{ a[0] }}", "`a.0`"),
            ("{{ a[\"k\"] }}", "`a.name`"),
            ("{{ 'text' }}", "double quotes"),
            ("{{ a + 1 }}", "add(a, b)"),
            ("{{ a * 2 }}", "add(a, b)"),
            ("{{ a ~ b }}", "{{ a }}{{ b }}"),
            ("{{ x if c else y }}", "{% else %}"),
            ("{{ c ? x : y }}", "{% else %}"),
            ("{{ a | f(1) }}", "after a colon"),
            ("{{ a.items() }}", "no methods"),
            ("{{ 1.5 }}", "integers"),
            ("{{{ a }}}", "verbatim"),
            ("{{ $x }}", "a letter"),
            ("{{ a; }}", "end of a tag"),
            ("{{ a @ }}", ""),
            ("{{ a b }}", ""),
        ],
    )?;
    assert_eq!(&rt; wrong.as_str(), "");
    Ok(())
}
