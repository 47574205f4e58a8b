// What the compiler is told in an order that no text has: it does what its definition says, and never panics.
use crate::instructions::lines;
use std::alloc::{AllocError, Global};
use std::test::Fail;
use upon_compiler::compile::Compiler;
use upon_compiler::types::program::Instr;
use upon_types::types::Span;
use upon_types::types::ast::{Ident, Literal, LoopVars, Name};
use upon_types::value::Value;

#[derive(Clone, Copy)]
enum Event {
    If,
    ElseIf,
    Else,
    EndIf,
    For,
    EndFor,
    With,
    EndWith,
}

use Event::{Else, ElseIf, EndFor, EndIf, EndWith, For, If, With};

const EVENTS: [Event; 8] = [If, ElseIf, Else, EndIf, For, EndFor, With, EndWith];

const NOWHERE: Span = Span { m: 0, n: 0 };

fn name(alloc: Global) -> Result<Ident, AllocError> {
    Ok(Ident {
        name: Name::from_str(alloc, "x")?,
        span: NOWHERE,
    })
}

// The instructions of the expression of each tag that has one.
fn one(alloc: Global) -> Result<Vec<Instr>, AllocError> {
    Ok(vec![in alloc; Instr::ExprStartLiteral(Literal {
        value: Value::Integer(1),
        span: NOWHERE,
    })]?)
}

fn tell(alloc: Global, compiler: &mut Compiler, event: Event) -> Result<(), AllocError> {
    match event {
        If => compiler.begin_if(&mut one(alloc)?, false),
        ElseIf => compiler.else_if(&mut one(alloc)?, false),
        Else => compiler.begin_else(),
        EndIf => {
            compiler.end_if();
            Ok(())
        }
        For => {
            let names = Box::new(alloc, LoopVars::Item(name(alloc)?))?;
            compiler.begin_for(&mut one(alloc)?, names, NOWHERE)
        }
        EndFor => compiler.end_for(),
        With => compiler.begin_with(&mut one(alloc)?, name(alloc)?),
        EndWith => compiler.end_with(),
    }
}

fn told(alloc: Global, events: &[Event]) -> Result<String, AllocError> {
    let mut compiler = Compiler::new(alloc);
    for event in events {
        tell(alloc, &mut compiler, *event)?;
    }
    lines(alloc, &compiler.finish(), None)
}

// Events, and the lines of the instructions.
const ROWS: &[(&[Event], &str)] = &[
    (&[], ""),
    (&[Else], ""),
    (&[EndIf], ""),
    (&[EndFor], ""),
    (&[EndWith], "end with\n"),
    (&[ElseIf, EndIf], "literal 1\njump if false 2\n"),
    (&[If, EndIf, EndIf], "literal 1\njump if false 2\n"),
    (&[If], "literal 1\njump 0\n"),
    (&[If, EndFor, EndIf], "literal 1\njump 0\n"),
    (&[If, Else], "literal 1\njump if false 3\njump 0\n"),
    (
        &[If, Else, Else, EndIf],
        "literal 1\njump if false 3\njump 0\n",
    ),
    (&[For], "literal 1\nloop x 0..0\nnext 0\n"),
    (&[For, EndIf, EndFor], "literal 1\nloop x 0..0\nnext 0\n"),
    (
        &[For, Else, Else],
        "literal 1\nloop x 0..0\nnext 0\njump 2\n",
    ),
    (
        &[For, EndFor, EndFor],
        "literal 1\nloop x 0..0\nnext 4\njump 2\n",
    ),
    (&[With, Else, EndWith], "literal 1\nwith x\nend with\n"),
    (&[With, EndIf], "literal 1\nwith x\n"),
];

#[test]
fn in_orders_of_no_text(rt: HostRuntime) -> Result<(), Fail> {
    for (events, wanted) in ROWS {
        assert_eq!(rt; told(rt.alloc(), events)?.as_str(), *wanted);
    }
    Ok(())
}

// Four events of the eight, by the digits of a number.
fn four(number: usize) -> [Event; 4] {
    [
        EVENTS[number % 8],
        EVENTS[number / 8 % 8],
        EVENTS[number / 64 % 8],
        EVENTS[number / 512 % 8],
    ]
}

#[test]
fn in_each_order_of_four(rt: HostRuntime) -> Result<(), Fail> {
    for number in 0..4_096 {
        told(rt.alloc(), &four(number))?;
    }
    Ok(())
}
