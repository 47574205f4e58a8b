// A large text, list or depth is no reason to answer that memory is out.
use std::alloc::{AllocError, Global};
use std::borrow::CowStr;
use std::process::Abort;
use std::test::Fail;
use upon::{Engine, Value};
use upon_examples::answers::line_of;
use upon_serde::to_value;

// How often a text is doubled, a literal, and a list's items.
const TEXTS: usize = 20; // ./test: 16
const LITERALS: usize = 19; // ./test: 15
const ITEMS: usize = 12; // ./test: 9

// The bytes of the largest literal.
const LARGEST: usize = 1 << 20; // ./test: 1 << 17

// How near to a power of two sizes are tried.
const NEAR: usize = 8;

// The bytes of a source, and the items of a program's own list.
const SOURCE: usize = 2_500_000; // ./test: 170_000
const LISTED: u32 = 250_000; // ./test: 2_500

// A text many times over.
fn many(alloc: Global, part: &str, times: usize) -> Result<String, AllocError> {
    let mut text = String::new(alloc);
    for _ in 0..times {
        text.push_str(part)?;
    }
    Ok(text)
}

// Two texts many times over, with a third between them.
fn around(
    alloc: Global,
    begin: &str,
    middle: &str,
    end: &str,
    times: usize,
) -> Result<String, AllocError> {
    let mut text = many(alloc, begin, times)?;
    text.push_str(middle)?;
    text.push_str(many(alloc, end, times)?.as_str())?;
    Ok(text)
}

// A template's rendering is that long, in bytes, as a text and at a writer.
fn is_long(rt: &impl Abort, alloc: Global, source: &str, length: usize) -> Result<(), Fail> {
    let engine = Engine::new(alloc);
    let template = engine.compile(CowStr::Borrowed(source))?;
    let text = template.render_from(&engine, &Value::None).to_string()?;
    assert_eq!(rt; text.len(), length);
    let mut received = Vec::new(alloc);
    template
        .render_from(&engine, &Value::None)
        .to_writer(&mut received)?;
    assert_eq!(rt; received.len(), length);
    Ok(())
}

#[test]
fn large_texts(rt: HostRuntime) -> Result<(), Fail> {
    let alloc = rt.alloc();
    let mut times = 1usize;
    for _ in 0..TEXTS {
        times = times.wrapping_mul(2);
        is_long(&rt, alloc, many(alloc, "x", times)?.as_str(), times)?;
    }
    Ok(())
}

// More than 64 KiB come out, a hundred bytes at a time.
#[test]
fn many_small_parts(rt: HostRuntime) -> Result<(), Fail> {
    let alloc = rt.alloc();
    let part = around(alloc, "x", "{{ 1 }}", "y", 50)?;
    is_long(
        &rt,
        alloc,
        many(alloc, part.as_str(), 700)?.as_str(),
        70_700,
    )
}

#[test]
fn large_literals(rt: HostRuntime) -> Result<(), Fail> {
    let alloc = rt.alloc();
    let mut times = 1usize;
    for _ in 0..ITEMS {
        times = times.wrapping_mul(2);
        let items = many(alloc, "1,", times)?;
        let source = format!(in alloc; "{{% for x in [{items}] %}}{{{{ x }}}}{{% endfor %}}")?;
        is_long(&rt, alloc, source.as_str(), times)?;
    }
    let nested = around(alloc, "[", "1", "]", 1_000)?;
    let source = format!(in alloc; "{{% for x in {nested} %}}x{{% endfor %}}")?;
    is_long(&rt, alloc, source.as_str(), 1)
}

#[test]
fn deep_blocks(rt: HostRuntime) -> Result<(), Fail> {
    let alloc = rt.alloc();
    let source = around(alloc, "{% with 1 as a %}", "{{ a }}", "{% endwith %}", 300)?;
    is_long(&rt, alloc, source.as_str(), 1)
}

// An engine with that many templates: each writes a letter and includes the next, the last one alone writes a letter.
fn chain<'e>(alloc: Global, length: u32) -> Result<Engine<'e>, Fail> {
    let mut engine = Engine::new(alloc);
    engine.set_max_include_depth(1000);
    for i in 0..length {
        let next = i.wrapping_add(1);
        let name = format!(in alloc; "t{i}")?;
        let source = format!(in alloc; "x{{% include \"t{next}\" %}}")?;
        engine.add_template(CowStr::Owned(name), CowStr::Owned(source))?;
    }
    let last = format!(in alloc; "t{length}")?;
    engine.add_template(CowStr::Owned(last), CowStr::Borrowed("y"))?;
    Ok(engine)
}

#[test]
fn deep_includes_of_many_templates(rt: HostRuntime) -> Result<(), Fail> {
    let engine = chain(rt.alloc(), 300)?;
    let Some(first) = engine.get_template("t0") else {
        return Err(Fail::new(format_args!("no t0")));
    };
    let text = first.render_from(&Value::None).to_string()?;
    assert_eq!(&rt; text.len(), 301);
    Ok(())
}

// A literal of that many letters.
fn literal(alloc: Global, times: usize) -> Result<String, AllocError> {
    let text = many(alloc, "x", times)?;
    format!(in alloc; "{{{{ \"{text}\" }}}}")
}

#[test]
fn large_values(rt: HostRuntime) -> Result<(), Fail> {
    let alloc = rt.alloc();
    let mut times = 1usize;
    for _ in 0..LITERALS {
        times = times.wrapping_mul(2);
        is_long(&rt, alloc, literal(alloc, times)?.as_str(), times)?;
    }
    is_long(&rt, alloc, "{{ 9223372036854775807 }}", 19)?;
    is_long(&rt, alloc, "{{ -9223372036854775808 }}", 20)
}

#[test]
fn a_value_of_a_mebibyte(rt: HostRuntime) -> Result<(), Fail> {
    let alloc = rt.alloc();
    is_long(&rt, alloc, literal(alloc, LARGEST)?.as_str(), LARGEST)
}

// How deep includes may be is said as it was set, whatever it is.
#[test]
fn limits_of_depth(rt: HostRuntime) -> Result<(), Fail> {
    let alloc = rt.alloc();
    for limit in [1usize, 64, 65, 150, 290] {
        let mut engine = chain(alloc, 300)?;
        engine.set_max_include_depth(limit);
        let Some(rendered) = engine.render_template("t0", &Value::None) else {
            return Err(Fail::new("no t0"));
        };
        let line = line_of(alloc, rendered)?;
        let wanted = format!(in alloc;
            "render error: reached maximum include depth ({limit})"
        )?;
        assert!(&rt; line == wanted, "{line}");
    }
    Ok(())
}

// A long source is written as any other.
#[test]
fn a_source_of_many_bytes(rt: HostRuntime) -> Result<(), Fail> {
    let alloc = rt.alloc();
    let source = "x".repeat(alloc, SOURCE)?;
    let mut received = Vec::new(alloc);
    Engine::new(alloc).render_text_to(source.as_str(), &Value::None, &mut received)?;
    assert_eq!(&rt; received.len(), SOURCE);
    Ok(())
}

// A program's own list is a value, however long.
#[test]
fn a_list_of_many_items(rt: HostRuntime) -> Result<(), Fail> {
    let alloc = rt.alloc();
    let mut items = Vec::new(alloc);
    for number in 0..LISTED {
        items.push(number)?;
    }
    let Ok(list) = to_value(alloc, items)?.into_items() else {
        return Err(Fail::new(format_args!("no list")));
    };
    assert_eq!(&rt; list.len(), LISTED as usize);
    Ok(())
}

// Texts of each size near a power of two are templates.
#[test]
fn sizes_around_powers_of_two(rt: HostRuntime) -> Result<(), Fail> {
    let alloc = rt.alloc();
    let engine = Engine::new(alloc);
    let longest = "x".repeat(alloc, LARGEST + NEAR)?;
    let mut power = NEAR;
    while power <= LARGEST {
        for size in power - NEAR..=power + NEAR {
            let text = longest.get(..size).unwrap_or_default();
            let template = engine.compile(CowStr::Borrowed(text))?;
            assert_eq!(&rt; template.source().len(), size);
        }
        power = power.wrapping_mul(2);
    }
    Ok(())
}
