// Names of `upon::functions`.
use std::alloc::{AllocError, Global};
use std::collections::BTreeMap;
use std::test::Fail;
use upon::Value;
use upon::functions::{
    ArgError, Call0, Call1, Call1L, Call1M, Call1S, Call1V, Call2, Call2LO, Call2LS, Call2LV,
    Call2MO, Call2MS, Call2MV, Call2OS, Call2OV, Call2SO, Call2SS, Call2SV, Call2VO, Call2VS,
    Call2VV, Call3, Call4, Call5, CallError, Fn0, Fn1, Fn1L, Fn1M, Fn1S, Fn1V, Fn2, Fn2LO, Fn2LS,
    Fn2LV, Fn2MO, Fn2MS, Fn2MV, Fn2OS, Fn2OV, Fn2SO, Fn2SS, Fn2SV, Fn2VO, Fn2VS, Fn2VV, Fn3, Fn4,
    Fn5, Function, FunctionError, FunctionReturn, OwnedArgument,
};
use upon::value::ValueCow;

fn drops<T: Drop>(_one: &T) {}

pub fn call<F: Function>(
    function: &F,
    alloc: Global,
    args: &[ValueCow],
) -> Result<Value, CallError> {
    drops(function);
    function.call(alloc, args)
}

pub fn boxed(
    function: Box<dyn Function>,
    alloc: Global,
    args: &[ValueCow],
) -> Result<Value, CallError> {
    function.call(alloc, args)
}

pub fn call_error(error: CallError) -> usize {
    match error {
        CallError::Arity(count) => count,
        CallError::Arg(index, ArgError::WrongType(_word)) => index,
        CallError::Arg(index, ArgError::OutOfRange(_word)) => index,
        CallError::Fault(text) => text.len(),
        CallError::Memory => 0,
    }
}

pub fn words(word: &'static str) -> [ArgError; 2] {
    [ArgError::WrongType(word), ArgError::OutOfRange(word)]
}

fn owned<T: OwnedArgument>() {}

pub fn arguments() {
    owned::<()>();
    owned::<bool>();
    owned::<u8>();
    owned::<u16>();
    owned::<u32>();
    owned::<u64>();
    owned::<u128>();
    owned::<usize>();
    owned::<i8>();
    owned::<i16>();
    owned::<i32>();
    owned::<i64>();
    owned::<i128>();
    owned::<isize>();
    owned::<String>();
    owned::<Vec<Value>>();
    owned::<BTreeMap<String, Value>>();
    owned::<Value>();
}

pub fn to_value<T: FunctionReturn>(given: T, alloc: Global) -> Result<Value, CallError> {
    given.to_value(alloc)
}

fn returns<T: FunctionReturn>() {}

// A type, an option of it, and results of both with each error.
fn returned<T: FunctionReturn>() {
    returns::<T>();
    returns::<Option<T>>();
    returns::<Result<T, String>>();
    returns::<Result<T, &'static str>>();
    returns::<Result<T, AllocError>>();
    returns::<Result<Option<T>, String>>();
    returns::<Result<Result<T, String>, AllocError>>();
    returns::<Result<Result<T, &'static str>, AllocError>>();
    returns::<Result<Result<T, AllocError>, String>>();
}

pub fn returned_types() {
    returned::<()>();
    returned::<bool>();
    returned::<u8>();
    returned::<u16>();
    returned::<u32>();
    returned::<i8>();
    returned::<i16>();
    returned::<i32>();
    returned::<i64>();
    returned::<String>();
    returned::<&'static str>();
    returned::<Vec<Value>>();
    returned::<BTreeMap<String, Value>>();
    returned::<Value>();
}

pub fn to_error<T: FunctionError>(given: T, alloc: Global) -> CallError {
    given.to_error(alloc)
}

fn refuses<T: FunctionError>() {}

pub fn errors() {
    refuses::<String>();
    refuses::<&'static str>();
    refuses::<AllocError>();
}

// The adapters: each makes a function of a type with the trait that it goes with.
fn is_function<F: Function>(_function: F) {}

pub fn all_owned<
    C: Call0<i64>
        + Call1<i64, i64>
        + Call2<i64, i64, i64>
        + Call3<i64, i64, i64, i64>
        + Call4<i64, i64, i64, i64, i64>
        + Call5<i64, i64, i64, i64, i64, i64>
        + Copy,
>(callable: C) {
    is_function(Fn0::<C, i64>::new(callable));
    is_function(Fn1::<C, i64, i64>::new(callable));
    is_function(Fn2::<C, i64, i64, i64>::new(callable));
    is_function(Fn3::<C, i64, i64, i64, i64>::new(callable));
    is_function(Fn4::<C, i64, i64, i64, i64, i64>::new(callable));
    is_function(Fn5::<C, i64, i64, i64, i64, i64, i64>::new(callable));
}

pub fn one_reference<C: Call1S<i64> + Call1L<i64> + Call1M<i64> + Call1V<i64> + Copy>(callable: C) {
    is_function(Fn1S::<C, i64>::new(callable));
    is_function(Fn1L::<C, i64>::new(callable));
    is_function(Fn1M::<C, i64>::new(callable));
    is_function(Fn1V::<C, i64>::new(callable));
}

pub fn with_an_owned<
    C: Call2OS<i64, i64>
        + Call2OV<i64, i64>
        + Call2SO<i64, i64>
        + Call2LO<i64, i64>
        + Call2MO<i64, i64>
        + Call2VO<i64, i64>
        + Copy,
>(callable: C) {
    is_function(Fn2OS::<C, i64, i64>::new(callable));
    is_function(Fn2OV::<C, i64, i64>::new(callable));
    is_function(Fn2SO::<C, i64, i64>::new(callable));
    is_function(Fn2LO::<C, i64, i64>::new(callable));
    is_function(Fn2MO::<C, i64, i64>::new(callable));
    is_function(Fn2VO::<C, i64, i64>::new(callable));
}

pub fn two_references<
    C: Call2SS<i64>
        + Call2SV<i64>
        + Call2LS<i64>
        + Call2LV<i64>
        + Call2MS<i64>
        + Call2MV<i64>
        + Call2VS<i64>
        + Call2VV<i64>
        + Copy,
>(callable: C) {
    is_function(Fn2SS::<C, i64>::new(callable));
    is_function(Fn2SV::<C, i64>::new(callable));
    is_function(Fn2LS::<C, i64>::new(callable));
    is_function(Fn2LV::<C, i64>::new(callable));
    is_function(Fn2MS::<C, i64>::new(callable));
    is_function(Fn2MV::<C, i64>::new(callable));
    is_function(Fn2VS::<C, i64>::new(callable));
    is_function(Fn2VV::<C, i64>::new(callable));
}

#[test]
fn errors_of_calls(rt: HostRuntime) -> std::result::Result<(), Fail> {
    let alloc = rt.alloc();
    let [wrong, out] = words("a number");
    assert_eq!(rt; call_error(CallError::Arity(2)), 2);
    assert_eq!(rt; call_error(CallError::Arg(1, wrong)), 1);
    assert_eq!(rt; call_error(CallError::Arg(3, out)), 3);
    assert_eq!(rt; call_error(CallError::Memory), 0);
    assert_eq!(rt; call_error(to_error("four", alloc)), 4);
    let Ok(made) = to_value(1i64, alloc) else {
        return Err(Fail::from(AllocError));
    };
    assert!(rt; made == Value::Integer(1));
    Ok(())
}
