// The examples of docs/STANDARD.md, docs/QUOTING.md and docs/DATA.md.
use std::alloc::Global;
use std::test::Fail;
use upon::{Engine, Result, value};
use upon_data::parts::Data;
use upon_data::table::table;
use upon_quote::json::Json;
use upon_quote::shell::Shell;
use upon_quote::yaml::Yaml;
use upon_std::table::ALL;

fn prices(alloc: Global) -> Result<String> {
    let mut engine = Engine::new(alloc);
    for function in ALL.as_slice() {
        engine.add_function(function.name().into(), Box::new(alloc, *function)?)?;
    }
    let context = value! { in alloc; rows: [{name: "tea", cents: 350}, {name: "milk", cents: 95}] }?;
    let source = "{% for row in rows %}{{ row.name | upper }} {{ decimal(row.cents, 2) }}\
        {% if ge(row.cents, 100) %} *{% endif %}\n{% endfor %}{{ length(rows) }} rows\n";
    engine.render_text(source, &context)
}

fn quoted(alloc: Global) -> Result<String> {
    let mut engine = Engine::new(alloc);
    engine.add_formatter("json".into(), Box::new(alloc, Json)?)?;
    engine.add_formatter("yaml".into(), Box::new(alloc, Yaml)?)?;
    engine.add_formatter("shell".into(), Box::new(alloc, Shell)?)?;
    let context = value! { in alloc; text: "it's \"é\"\n" }?;
    let source = "{\"text\": \"{{ text | json }}\"}\ntext: \"{{ text | yaml }}\"\necho {{ text | shell }}\n";
    engine.render_text(source, &context)
}

fn list(alloc: Global) -> Option<Result<String>> {
    let text = "name,price\ntea,3.50\n\"milk, cold\",0.95\n";
    let mut data = Data::new(alloc);
    data.put_at(alloc, "rows", table(alloc, text).ok()?).ok()?;
    let source = "{% for row in rows %}{{ row.name }}: {{ row.price }}\n{% endfor %}";
    Some(Engine::new(alloc).render_text(source, &data.into_value()))
}

#[test]
fn standard_functions(rt: HostRuntime) -> std::result::Result<(), Fail> {
    assert_eq!(&rt; prices(rt.alloc())?.as_str(), "TEA 3.50 *\nMILK 0.95\n2 rows\n");
    Ok(())
}

// How many standard functions have this name.
fn times(name: &str) -> usize {
    let mut times = 0usize;
    for function in ALL {
        if function.name() == name {
            times = times.saturating_add(1);
        }
    }
    times
}

#[test]
fn standard_names(rt: HostRuntime) -> std::result::Result<(), Fail> {
    assert_eq!(&rt; ALL.len(), 59);
    for function in ALL {
        assert_eq!(&rt; times(function.name()), 1, "{}", function.name());
    }
    Ok(())
}

#[test]
fn quotes(rt: HostRuntime) -> std::result::Result<(), Fail> {
    let wanted = "{\"text\": \"it's \\\"é\\\"\\n\"}\ntext: \"it's \\\"é\\\"\\n\"\necho 'it'\\''s \"é\"\n'\n";
    assert_eq!(&rt; quoted(rt.alloc())?.as_str(), wanted);
    Ok(())
}

#[test]
fn tables(rt: HostRuntime) -> std::result::Result<(), Fail> {
    let Some(text) = list(rt.alloc()) else {
        return Err(Fail::new(format_args!("no data")));
    };
    assert_eq!(&rt; text?.as_str(), "tea: 3.50\nmilk, cold: 0.95\n");
    Ok(())
}
