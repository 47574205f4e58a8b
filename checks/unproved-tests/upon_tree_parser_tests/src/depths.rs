// Trees of many levels and long rows: they are made and dropped without taking more of the call stack.
use crate::pieces::Piece::{self, *};
use crate::pieces::tell;
use crate::tags::{tokens_in, tree_of_tokens};
use std::alloc::{AllocError, Global};
use std::process::Abort;
use std::test::Fail;
use upon_lexer::literal::Lexed;
use upon_tree::statements::TreeBuilder;
use upon_types::types::Span;

const DEPTH: usize = 50_000; // ./test: 5_000

/// What is before an expression, once for each level, the expression, and what is after it, once for each level.
type Nest = (&'static str, &'static str, &'static str);

const BRACKETS: &[Nest] = &[
    ("(", "a", ")"),
    ("[", "1", "]"),
    ("{\"k\": ", "a", "} "),
    ("f(b, ", "a", ", c)"),
    ("(b | f: ", "a", ")"),
    ("(", "a", " | f)"),
];

const FILTERS: &[Nest] = &[("", "a", " | f"), ("", "f()", " | f: b")];

fn add_copies(text: &mut String, part: &str) -> Result<(), AllocError> {
    for _ in 0..DEPTH {
        text.push_str(part)?;
    }
    Ok(())
}

// The expression in its tag.
fn tag_of(alloc: Global, nest: &Nest) -> Result<String, AllocError> {
    let (before, middle, after) = nest;
    let mut tag = String::from_str(alloc, "{{ ")?;
    add_copies(&mut tag, before)?;
    tag.push_str(middle)?;
    add_copies(&mut tag, after)?;
    tag.push_str(" }}")?;
    Ok(tag)
}

// The tokens between two offsets, so many times, each time further on by what lies between these; and this far on.
fn add_tokens(
    tokens: &mut Vec<Lexed>,
    one: &[Lexed],
    between: Span,
    times: usize,
    further: usize,
) -> Result<(), AllocError> {
    let Span { m, n } = between;
    for level in 0..times {
        let by = further + level * (n - m);
        for lexed in one.iter().filter(|it| m <= it.span.m && it.span.m < n) {
            let span = Span {
                m: lexed.span.m + by,
                n: lexed.span.n + by,
            };
            let token = lexed.token;
            tokens.push(Lexed { token, span })?;
        }
    }
    Ok(())
}

// The tokens of the expression in its tag, made from those of one level: the lexer would take most of the time.
fn tokens_of(alloc: Global, nest: &Nest) -> Result<Vec<Lexed>, Fail> {
    let (before, middle, after) = nest;
    let one = tokens_in(
        alloc,
        format!(in alloc; "{{{{ {before}{middle}{after} }}}}")?.as_str(),
    )?;
    let begin = Span {
        m: 3,
        n: 3 + before.len(),
    };
    let inside = Span {
        m: begin.n,
        n: begin.n + middle.len(),
    };
    let end = Span {
        m: inside.n,
        n: inside.n + after.len(),
    };
    let further = (DEPTH - 1) * before.len();
    let mut tokens = Vec::new(alloc);
    add_tokens(&mut tokens, &one, begin, DEPTH, 0)?;
    add_tokens(&mut tokens, &one, inside, 1, further)?;
    add_tokens(&mut tokens, &one, end, DEPTH, further)?;
    Ok(tokens)
}

// Each expression has a tree, whose place is from the begin of the tag to the last token before its end.
fn all_made(rt: &impl Abort, alloc: Global, nests: &[Nest]) -> Result<(), Fail> {
    for nest in nests {
        let tag = tag_of(alloc, nest)?;
        let tree = tree_of_tokens(alloc, tag.as_str(), &tokens_of(alloc, nest)?)?;
        let inside = tag.as_str().strip_suffix("}}").unwrap_or("").trim_end();
        let place = Span {
            m: 3,
            n: inside.len(),
        };
        let before = nest.0;
        assert_eq!(rt; tree.span(), place, "of {before}");
        drop(tree);
    }
    Ok(())
}

#[test]
fn brackets_in_brackets(rt: HostRuntime) -> Result<(), Fail> {
    all_made(&rt, rt.alloc(), BRACKETS)
}

#[test]
fn filters_in_a_row(rt: HostRuntime) -> Result<(), Fail> {
    all_made(&rt, rt.alloc(), FILTERS)
}

/// The pieces that are told once for each level, and those that are told then, once for each level.
type Blocks = (&'static [Piece], &'static [Piece]);

const BLOCKS: &[Blocks] = &[
    (&[If("a"), Raw("b"), Else], &[Raw("c"), End]),
    (&[IfNot("a"), ElseIf("b")], &[End]),
    (&[For("a", "b")], &[Else, Raw("c"), End]),
    (&[With("a", "b")], &[Raw("c"), End]),
];

fn tell_levels(
    alloc: Global,
    builder: &mut TreeBuilder,
    pieces: &[Piece],
) -> Result<(), AllocError> {
    for _ in 0..DEPTH {
        for piece in pieces {
            tell(alloc, builder, *piece)?;
        }
    }
    Ok(())
}

#[test]
fn blocks_in_blocks(rt: HostRuntime) -> Result<(), Fail> {
    let alloc = rt.alloc();
    for (begins, ends) in BLOCKS {
        let mut builder = TreeBuilder::new(alloc);
        tell_levels(alloc, &mut builder, begins)?;
        tell_levels(alloc, &mut builder, ends)?;
        let tree = builder.finish();
        assert!(&rt; tree.scope.stmts.len() <= 2);
        drop(tree);
    }
    Ok(())
}

#[test]
fn open_blocks(rt: HostRuntime) -> Result<(), Fail> {
    let alloc = rt.alloc();
    for (begins, _) in BLOCKS {
        let mut builder = TreeBuilder::new(alloc);
        tell_levels(alloc, &mut builder, begins)?;
        drop(builder);
    }
    Ok(())
}

// One end ends all of them.
#[test]
fn else_ifs_in_a_row(rt: HostRuntime) -> Result<(), Fail> {
    let alloc = rt.alloc();
    let mut builder = TreeBuilder::new(alloc);
    tell(alloc, &mut builder, If("a"))?;
    tell_levels(alloc, &mut builder, &[Raw("b"), ElseIf("c")])?;
    tell(alloc, &mut builder, Else)?;
    tell(alloc, &mut builder, End)?;
    tell(alloc, &mut builder, Raw("d"))?;
    let tree = builder.finish();
    assert_eq!(&rt; tree.scope.stmts.len(), 2);
    Ok(())
}
