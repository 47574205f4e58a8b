// A callable of every kind, which answers the name of its adapter.
ghost use Rattle.std.specs.Prelude.{codes};
ghost use Rattle.upon_functions_tests.specs.Callables.{named};

use std::alloc::Global;
use std::collections::BTreeMap;
use upon::functions::{
    Call0, Call1, Call1L, Call1M, Call1S, Call1V, Call2, Call2LO, Call2LS, Call2LV, Call2MO,
    Call2MS, Call2MV, Call2OS, Call2OV, Call2SO, Call2SS, Call2SV, Call2VO, Call2VS, Call2VV,
    Call3, Call4, Call5,
};
use upon_types::value::Value;

/// A callable of any arguments, which answers the name of its adapter.
#[derive(Drop)]
pub struct Named;

/// What it returns.
pub type Name = &'static str;

impl Call0<Name> for Named {
    ghost meaning = { λ _. named (codes "Fn0") };

    fn call(&self, _alloc: Global) -> Name {
        "Fn0"
    }
}

impl Call1<i64, Name> for Named {
    ghost meaning = { λ _. named (codes "Fn1") };

    fn call(&self, _alloc: Global, _first: i64) -> Name {
        "Fn1"
    }
}

impl Call2<i64, i64, Name> for Named {
    ghost meaning = { λ _. named (codes "Fn2") };

    fn call(&self, _alloc: Global, _first: i64, _second: i64) -> Name {
        "Fn2"
    }
}

impl Call3<i64, i64, i64, Name> for Named {
    ghost meaning = { λ _. named (codes "Fn3") };

    fn call(&self, _alloc: Global, _first: i64, _second: i64, _third: i64) -> Name {
        "Fn3"
    }
}

impl Call4<i64, i64, i64, i64, Name> for Named {
    ghost meaning = { λ _. named (codes "Fn4") };

    fn call(&self, _alloc: Global, _first: i64, _second: i64, _third: i64, _fourth: i64) -> Name {
        "Fn4"
    }
}

impl Call5<i64, i64, i64, i64, i64, Name> for Named {
    ghost meaning = { λ _. named (codes "Fn5") };

    fn call(
        &self,
        _alloc: Global,
        _first: i64,
        _second: i64,
        _third: i64,
        _fourth: i64,
        _fifth: i64,
    ) -> Name {
        "Fn5"
    }
}

impl Call1S<Name> for Named {
    ghost meaning = { λ _. named (codes "Fn1S") };

    fn call(&self, _alloc: Global, _first: &str) -> Name {
        "Fn1S"
    }
}

impl Call1L<Name> for Named {
    ghost meaning = { λ _. named (codes "Fn1L") };

    fn call(&self, _alloc: Global, _first: &[Value]) -> Name {
        "Fn1L"
    }
}

impl Call1M<Name> for Named {
    ghost meaning = { λ _. named (codes "Fn1M") };

    fn call(&self, _alloc: Global, _first: &BTreeMap<String, Value>) -> Name {
        "Fn1M"
    }
}

impl Call1V<Name> for Named {
    ghost meaning = { λ _. named (codes "Fn1V") };

    fn call(&self, _alloc: Global, _first: &Value) -> Name {
        "Fn1V"
    }
}

impl Call2OS<i64, Name> for Named {
    ghost meaning = { λ _. named (codes "Fn2OS") };

    fn call(&self, _alloc: Global, _first: i64, _second: &str) -> Name {
        "Fn2OS"
    }
}

impl Call2OV<i64, Name> for Named {
    ghost meaning = { λ _. named (codes "Fn2OV") };

    fn call(&self, _alloc: Global, _first: i64, _second: &Value) -> Name {
        "Fn2OV"
    }
}

impl Call2SO<i64, Name> for Named {
    ghost meaning = { λ _. named (codes "Fn2SO") };

    fn call(&self, _alloc: Global, _first: &str, _second: i64) -> Name {
        "Fn2SO"
    }
}

impl Call2SS<Name> for Named {
    ghost meaning = { λ _. named (codes "Fn2SS") };

    fn call(&self, _alloc: Global, _first: &str, _second: &str) -> Name {
        "Fn2SS"
    }
}

impl Call2SV<Name> for Named {
    ghost meaning = { λ _. named (codes "Fn2SV") };

    fn call(&self, _alloc: Global, _first: &str, _second: &Value) -> Name {
        "Fn2SV"
    }
}

impl Call2LO<i64, Name> for Named {
    ghost meaning = { λ _. named (codes "Fn2LO") };

    fn call(&self, _alloc: Global, _first: &[Value], _second: i64) -> Name {
        "Fn2LO"
    }
}

impl Call2LS<Name> for Named {
    ghost meaning = { λ _. named (codes "Fn2LS") };

    fn call(&self, _alloc: Global, _first: &[Value], _second: &str) -> Name {
        "Fn2LS"
    }
}

impl Call2LV<Name> for Named {
    ghost meaning = { λ _. named (codes "Fn2LV") };

    fn call(&self, _alloc: Global, _first: &[Value], _second: &Value) -> Name {
        "Fn2LV"
    }
}

impl Call2MO<i64, Name> for Named {
    ghost meaning = { λ _. named (codes "Fn2MO") };

    fn call(&self, _alloc: Global, _first: &BTreeMap<String, Value>, _second: i64) -> Name {
        "Fn2MO"
    }
}

impl Call2MS<Name> for Named {
    ghost meaning = { λ _. named (codes "Fn2MS") };

    fn call(&self, _alloc: Global, _first: &BTreeMap<String, Value>, _second: &str) -> Name {
        "Fn2MS"
    }
}

impl Call2MV<Name> for Named {
    ghost meaning = { λ _. named (codes "Fn2MV") };

    fn call(&self, _alloc: Global, _first: &BTreeMap<String, Value>, _second: &Value) -> Name {
        "Fn2MV"
    }
}

impl Call2VO<i64, Name> for Named {
    ghost meaning = { λ _. named (codes "Fn2VO") };

    fn call(&self, _alloc: Global, _first: &Value, _second: i64) -> Name {
        "Fn2VO"
    }
}

impl Call2VS<Name> for Named {
    ghost meaning = { λ _. named (codes "Fn2VS") };

    fn call(&self, _alloc: Global, _first: &Value, _second: &str) -> Name {
        "Fn2VS"
    }
}

impl Call2VV<Name> for Named {
    ghost meaning = { λ _. named (codes "Fn2VV") };

    fn call(&self, _alloc: Global, _first: &Value, _second: &Value) -> Name {
        "Fn2VV"
    }
}
