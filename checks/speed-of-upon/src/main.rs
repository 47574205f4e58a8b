// speed-of-upon WORK FILE TIMES: the same work as crates/upon_bench (`compile`, `render`, `large`, `serde`,
// `serde-large`, `copy`, `compare`, `drop`) over the crate upon, for `checks/measure`.
// speed-of-upon program FILE [KEY=TEXT]..: the same as `upon-render`, over the crate upon.
use std::collections::BTreeMap;
use std::io::{self, BufWriter, Write};
use upon::{Engine, Value};

// The row of a number.
fn row(n: usize) -> Value {
    let mut user = BTreeMap::new();
    user.insert("email".to_string(), Value::from(format!("user{n}@example.org")));
    user.insert("age".to_string(), Value::from((n % 100) as i64));
    let mut row = BTreeMap::new();
    row.insert("id".to_string(), Value::from(n as i64));
    row.insert("name".to_string(), Value::from(format!("name of row {n}")));
    row.insert("active".to_string(), Value::from(n % 2 == 0));
    row.insert("user".to_string(), Value::from(user));
    Value::from(row)
}

// The value that templates are rendered on, with so many more names.
fn context(more: usize) -> Value {
    let mut map = BTreeMap::new();
    map.insert("rows".to_string(), Value::List((0..1000).map(row).collect()));
    let mut deep = Value::from(42i64);
    for name in ["h", "g", "f", "e", "d", "c", "b"] {
        let mut outer = BTreeMap::new();
        outer.insert(name.to_string(), deep);
        deep = Value::from(outer);
    }
    map.insert("a".to_string(), deep);
    map.insert("title".to_string(), Value::from("The title"));
    for n in 0..more {
        map.insert(format!("k{n}"), Value::from(n as i64));
    }
    Value::from(map)
}

// A list in a list, and so on, so many deep.
fn nested(depth: usize) -> Value {
    let mut value = Value::from(1i64);
    for _ in 0..depth {
        value = Value::List(vec![value]);
    }
    value
}

// Copies, compares or drops a nested list, and says when that is over.
fn go_deep(work: &str, depth: usize) {
    let first = nested(depth);
    match work {
        "copy" => {
            let _copy = first.clone();
            println!("over");
        }
        "compare" => {
            let second = nested(depth);
            println!("{}", if first == second { "over" } else { "not the same" });
        }
        _ => {
            drop(first);
            println!("over");
        }
    }
}

// Renders a file on the texts of the arguments, to standard output.
fn program(args: &[String]) -> Result<(), Box<dyn std::error::Error>> {
    let text = std::fs::read_to_string(&args[0])?;
    let texts = args[1..].iter().filter_map(|word| word.split_once('='));
    let context = Value::Map(texts.map(|(key, text)| (key.to_string(), Value::from(text))).collect());
    let mut engine = Engine::new();
    engine.add_template(args[0].as_str(), text)?;
    let mut out = BufWriter::with_capacity(64 * 1024, io::stdout().lock());
    engine.template(&args[0]).render_from(&context).to_writer(&mut out)?;
    out.flush()?;
    Ok(())
}

fn main() {
    let args: Vec<String> = std::env::args().skip(1).collect();
    if args[0] == "program" {
        if let Err(error) = program(&args[1..]) {
            eprintln!("{error:#}");
            std::process::exit(1);
        }
        return;
    }
    let text = std::fs::read_to_string(&args[1]).unwrap();
    let times: usize = args[2].parse().unwrap();
    if ["copy", "compare", "drop"].contains(&args[0].as_str()) {
        go_deep(&args[0], times);
        return;
    }
    let mut engine = Engine::new();
    let prefix = "get_".to_string();
    engine.add_function("getter", move |s: &str| {
        let mut whole = prefix.clone();
        whole.push_str(s);
        whole
    });
    engine.add_function("double", |n: i64| n.wrapping_add(n));
    engine.add_formatter("plain", upon::fmt::default);
    if args[0] == "compile" {
        for _ in 0..times {
            engine.compile(text.as_str()).unwrap();
        }
    } else {
        let by_serde = args[0].starts_with("serde");
        let context = context(if args[0].ends_with("large") { 10000 } else { 0 });
        engine.add_template("row", "{{ r.name }}").unwrap();
        engine.add_template("main", text.as_str()).unwrap();
        let mut size = 0;
        for _ in 0..times {
            let main = engine.template("main");
            let text = if by_serde { main.render(&context).to_string() } else { main.render_from(&context).to_string() };
            size = text.unwrap().len();
        }
        eprintln!("{size}");
    }
    println!("done");
}
