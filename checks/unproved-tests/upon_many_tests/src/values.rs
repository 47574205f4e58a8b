// The values of pages, and how these end.
use std::alloc::{AllocError, Global};
use std::test::Fail;
use upon::{Engine, Value};
use upon_json::context::context;
use upon_tool_many::pages::is_failed;
use upon_tool_many::pages::PageEnd;
use upon_tool_many::values::{item_value, content_value, split};

// The value of a text of JSON.
fn value(alloc: Global, json: &str) -> Result<Value, Fail> {
    match context(alloc, Some(json), &[]) {
        Ok(value) => Ok(value),
        Err(_) => Err(Fail::new("no context")),
    }
}

// What a template's text is on a value; `!` if it can't be rendered.
fn text(alloc: Global, source: &str, value: &Value) -> Result<String, AllocError> {
    match Engine::new(alloc).render_text(source, value) {
        Ok(text) => Ok(text),
        Err(_) => String::from_str(alloc, "!"),
    }
}

// The texts of a template on the values of the items under a key, with a `;` after each; `none` if there is no list.
fn texts(alloc: Global, json: &str, key: &str, source: &str) -> Result<String, Fail> {
    let Some((others, items)) = split(value(alloc, json)?, key) else {
        return Ok(String::from_str(alloc, "none")?);
    };
    let mut texts = String::new(alloc);
    for item in items {
        let value = item_value(alloc, &others, &item)?;
        texts.push_str(text(alloc, source, &value)?.as_str())?;
        texts.push(';')?;
    }
    Ok(texts)
}

#[test]
fn items(rt: HostRuntime) -> Result<(), Fail> {
    let alloc = rt.alloc();
    let shop = "{\"shop\": \"S\", \"n\": \"over\", \"rows\": [{\"n\": \"1\"}, {\"n\": \"2\", \"item\": \"x\"}, {}]}";
    for (json, key, source, wanted) in [
        (shop, "rows", "{{ shop }} {{ n }} {{ item?.n }}", "S 1 1;S 2 2;S over ;"),
        (shop, "rows", "{{ rows }}", "!;!;!;"),
        (shop, "row", "", "none"),
        (shop, "shop", "", "none"),
        ("{\"a\": {\"b\": []}}", "a", "", "none"),
        ("{\"a\": []}", "a", "x", ""),
        ("[[1, 2], [\"b\", 3]]", "items", "{{ item.0 }}", "1;b;"),
        ("[1, \"b\"]", "items", "{{ item }}", "1;b;"),
        ("[1, \"b\"]", "items", "{{ items }}", "!;!;"),
        ("{\"item\": \"up\", \"l\": [\"x\"]}", "l", "{{ item }}", "x;"),
        ("{\"l\": [{\"l\": \"own\"}]}", "l", "{{ l }}", "own;"),
    ] {
        let found = texts(alloc, json, key, source)?;
        assert_eq!(rt; found.as_str(), wanted, "{json} {key} {source}");
    }
    Ok(())
}

#[test]
fn contents(rt: HostRuntime) -> Result<(), Fail> {
    let alloc = rt.alloc();
    let context = value(alloc, "{\"title\": \"T\", \"content\": \"c\"}")?;
    for page in ["one", "{{ title }}", ""] {
        let framed = content_value(alloc, &context, String::from_str(alloc, page)?)?;
        let found = text(alloc, "{{ title }}[{{ content }}]", &framed)?;
        let wanted = format!(in alloc; "T[{page}]")?;
        assert_eq!(rt; found.as_str(), wanted.as_str());
    }
    Ok(())
}

#[test]
fn failures(rt: HostRuntime) {
    assert!(rt; !is_failed(&PageEnd::Written));
    assert!(rt; !is_failed(&PageEnd::Unchanged));
}
