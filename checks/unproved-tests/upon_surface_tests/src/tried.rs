// A function that is tried before its meaning is written: `?` stands for it, which only a proof asks for.
use std::alloc::Global;
use std::test::Fail;
use upon::functions::{Call2, Fn2};
use upon::{Engine, Result, Value};

// The sum of two integers, which wraps.
#[derive(Drop)]
struct Sum;

impl Call2<i64, i64, i64> for Sum {
    ghost meaning = { ? };

    fn call(&self, _alloc: Global, first: i64, second: i64) -> i64 {
        first.wrapping_add(second)
    }
}

fn with_sum(alloc: Global) -> Result<String> {
    let mut engine = Engine::new(alloc);
    engine.add_function("sum".into(), Box::new(alloc, Fn2::<Sum, i64, i64, i64>::new(Sum))?)?;
    engine.render_text("{{ sum(40, 2) }}", &Value::None)
}

#[test]
fn without_its_meaning(rt: HostRuntime) -> std::result::Result<(), Fail> {
    assert_eq!(rt; with_sum(rt.alloc())?.as_str(), "42");
    Ok(())
}
