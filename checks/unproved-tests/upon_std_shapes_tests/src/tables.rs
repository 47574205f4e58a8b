// How many signatures each standard function has.
use std::alloc::{AllocError, Global};
use std::test::Fail;
use upon_shape_check::declared::{Declared, DeclaredCallable};
use upon_shape::shape::Shape;
use upon_std::table::ALL;
use upon_std_shapes::declare::declare_standard;

// Each function's name, with the number of its signatures: none of those that may refuse arguments of each shape.
const COUNTS: [(&str, usize); 59] = [
    ("eq", 1),
    ("ne", 1),
    ("lt", 2),
    ("le", 2),
    ("gt", 2),
    ("ge", 2),
    ("not", 1),
    ("and", 1),
    ("or", 1),
    ("default", 11),
    ("choose", 11),
    ("add", 0),
    ("sub", 0),
    ("mul", 0),
    ("div", 0),
    ("rem", 0),
    ("min", 0),
    ("max", 0),
    ("neg", 0),
    ("abs", 0),
    ("decimal", 0),
    ("trim", 1),
    ("lower", 1),
    ("upper", 1),
    ("starts_with", 1),
    ("ends_with", 1),
    ("contains", 1),
    ("repeat", 0),
    ("length", 0),
    ("first", 11),
    ("last", 11),
    ("reverse", 11),
    ("join", 1),
    ("keys", 1),
    ("values", 11),
    ("get", 11),
    ("sort", 2),
    ("sort_by", 0),
    ("unique", 11),
    ("group_by", 12),
    ("range", 0),
    ("slice", 0),
    ("concat", 11),
    ("pluck", 12),
    ("where", 11),
    ("sum", 0),
    ("split", 0),
    ("lines", 1),
    ("replace", 0),
    ("indent", 0),
    ("json", 1),
    ("shell", 0),
    ("yaml", 1),
    ("url", 1),
    ("base64", 1),
    ("truncate", 0),
    ("pad_left", 0),
    ("pad_right", 0),
    ("center", 0),
];

/// Returns what is declared of the standard functions.
pub fn all_declared(alloc: Global) -> Result<Declared, AllocError> {
    let mut declared = Declared::new(alloc, Shape::shown());
    declare_standard(alloc, ALL.as_slice(), &mut declared)?;
    Ok(declared)
}

#[test]
fn each_function_is_in_the_table(rt: HostRuntime) -> Result<(), Fail> {
    for (index, function) in ALL.as_slice().iter().enumerate() {
        let listed = COUNTS.as_slice().get(index).map(|row| row.0);
        assert_eq!(rt; listed, Some(function.name()));
    }
    Ok(())
}

#[test]
fn each_function_has_so_many_signatures(rt: HostRuntime) -> Result<(), Fail> {
    let declared = all_declared(rt.alloc())?;
    for (name, wanted) in COUNTS {
        let found = match declared.callable(name) {
            Some(DeclaredCallable::Gives(signatures)) => signatures.len(),
            Some(DeclaredCallable::Formats(_)) | None => {
                return Err(Fail::new(format_args!("not declared: {name}")));
            }
        };
        assert_eq!(rt; found, wanted, "of {name}");
    }
    Ok(())
}

#[test]
fn some_functions_are_declared(rt: HostRuntime) -> Result<(), Fail> {
    let alloc = rt.alloc();
    let mut declared = Declared::new(alloc, Shape::shown());
    declare_standard(alloc, &ALL.as_slice()[21..24], &mut declared)?;
    for (name, is_there) in [("trim", true), ("lower", true), ("upper", true), ("eq", false)] {
        assert_eq!(rt; declared.callable(name).is_some(), is_there, "of {name}");
    }
    Ok(())
}
