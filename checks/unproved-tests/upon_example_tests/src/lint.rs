// Tests of the lint of docs/EXAMPLES.md.
use std::alloc::{AllocError, Global};
use std::test::Fail;
use upon::types::Span;
use upon_examples::lint::shown_without_filter;

// A name in each kind of block and branch; what has a filter, is in parentheses or a call is not found.
const PAGE: &str = "{{ a }}{{ b | lower }}{% if c %}{{ d.e }}{% else if f %}{{ g }}{% else %}{{ h }}{% endif %}\
{% for i in j %}{{ i }}{% else %}{{ k }}{% endfor %}{% with l as m %}{{ m?.n }}{% endwith %}\
{{ (o) }}{{ p() }}{{ 1 }}{% include \"q\" %}{# r #}";

// The parts of the page at these places, with a blank after each.
fn parts(alloc: Global, places: &[Span]) -> std::result::Result<String, AllocError> {
    let mut out = String::new(alloc);
    for place in places {
        out.push_str(PAGE.get(place.m..place.n).unwrap_or("no part of it"))?;
        out.push_str(" ")?;
    }
    Ok(out)
}

#[test]
fn names_are_found_in_order(rt: HostRuntime) -> std::result::Result<(), Fail> {
    let places = shown_without_filter(rt.alloc(), PAGE)?;
    let names = parts(rt.alloc(), &places)?;
    assert_eq!(rt; names.as_str(), "a d.e g h i k m?.n ");
    Ok(())
}

#[test]
fn a_text_without_a_tree_is_refused(rt: HostRuntime) -> std::result::Result<(), Fail> {
    let refused = shown_without_filter(rt.alloc(), "{{ a }}{% if b %}");
    let error = refused.err().ok_or("names")?;
    assert_eq!(rt; error.reason(), Some("unclosed `if` block"));
    Ok(())
}
