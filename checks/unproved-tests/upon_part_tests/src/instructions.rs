// Instructions as lines of text.
use std::alloc::{AllocError, Global};
use upon_compiler::types::program::Instr;
use upon_types::types::Span;
use upon_types::types::ast::{
    Access, AccessOp, Ident, Literal, LoopVars, Member, String as Quoted, Var,
};
use upon_types::value::Value;

/// Returns the lines of instructions. With the source, each span is shown as the part that it spans, in angle brackets;
/// without it, the spans of lists, maps, calls, loops and raw parts alone, as offsets.
pub fn lines(alloc: Global, code: &[Instr], source: Option<&str>) -> Result<String, AllocError> {
    let mut lines = Listing {
        source,
        text: String::new(alloc),
    };
    for instr in code {
        lines.add(instr)?;
        lines.text.push_str("\n")?;
    }
    let Listing { text, .. } = lines;
    Ok(text)
}

// The lines so far.
#[derive(Drop)]
struct Listing<'s> {
    source: Option<&'s str>,
    text: String,
}

impl<'s> Listing<'s> {
    fn add(&mut self, instr: &Instr) -> Result<(), AllocError> {
        match instr {
            Instr::Jump(to) => write!(self.text, "jump {to}"),
            Instr::JumpIfTrue(to) => write!(self.text, "jump if true {to}"),
            Instr::JumpIfFalse(to) => write!(self.text, "jump if false {to}"),
            Instr::Emit => self.text.push_str("emit"),
            Instr::EmitRaw(span) => self.spanned("raw", *span),
            Instr::EmitWith(name, count, span) => self.applied("emit with ", name, *count, *span),
            Instr::Include(name) => self.quoted("include", name),
            Instr::IncludeWith(name) => self.quoted("include with", name),
            _ => self.add_of_block(instr),
        }
    }

    fn add_of_block(&mut self, instr: &Instr) -> Result<(), AllocError> {
        match instr {
            Instr::LoopStart(vars, span) => {
                self.vars(vars)?;
                self.at(*span)
            }
            Instr::LoopNext(past) => write!(self.text, "next {past}"),
            Instr::LoopNextElse(other, past) => write!(self.text, "next else {other} {past}"),
            Instr::WithStart(name) => {
                self.text.push_str("with ")?;
                self.name(name)
            }
            Instr::WithEnd => self.text.push_str("end with"),
            _ => self.add_of_value(instr),
        }
    }

    fn add_of_value(&mut self, instr: &Instr) -> Result<(), AllocError> {
        match instr {
            Instr::ExprStartVar(var) => self.path(var),
            Instr::ExprStartLiteral(value) => self.literal(value),
            Instr::ExprStartList(span) => self.spanned("list", *span),
            Instr::ExprStartMap(span) => self.spanned("map", *span),
            Instr::ExprListPush => self.text.push_str("list push"),
            Instr::ExprMapInsert(key) => self.quoted("map insert", key),
            Instr::Apply(name, count, span) => self.applied("apply ", name, *count, *span),
            _ => self.text.push_str("no instruction"),
        }
    }

    // The part of the source at a span, in angle brackets.
    fn part(&mut self, span: Span) -> Result<(), AllocError> {
        let Some(source) = self.source else {
            return Ok(());
        };
        self.text.push_str("<")?;
        self.text.push_str(
            source
                .get(span.m..span.n)
                .unwrap_or("no part of the source"),
        )?;
        self.text.push_str(">")
    }

    // A blank, and then the source's part at a span, or the span's offsets if there is no source.
    fn at(&mut self, span: Span) -> Result<(), AllocError> {
        self.text.push_str(" ")?;
        if self.source.is_none() {
            let Span { m, n } = span;
            write!(self.text, "{m}..{n}")?;
        }
        self.part(span)
    }

    fn spanned(&mut self, word: &str, span: Span) -> Result<(), AllocError> {
        self.text.push_str(word)?;
        self.at(span)
    }

    // A word, the part of the source, and a blank.
    fn begin(&mut self, word: &str, span: Span) -> Result<(), AllocError> {
        self.text.push_str(word)?;
        if self.source.is_some() {
            self.at(span)?;
        }
        Ok(())
    }

    // A name, and its part of the source where that is another text.
    fn name(&mut self, ident: &Ident) -> Result<(), AllocError> {
        let name = ident.name.as_str();
        self.text.push_str(name)?;
        let part = self
            .source
            .and_then(|source| source.get(ident.span.m..ident.span.n));
        if part != Some(name) {
            self.part(ident.span)?;
        }
        Ok(())
    }

    fn applied(
        &mut self,
        word: &str,
        name: &Ident,
        count: usize,
        span: Span,
    ) -> Result<(), AllocError> {
        self.text.push_str(word)?;
        self.name(name)?;
        write!(self.text, " {count}")?;
        self.at(span)
    }

    fn quoted(&mut self, word: &str, text: &Quoted) -> Result<(), AllocError> {
        self.begin(word, text.span)?;
        self.text.push_str(" ")?;
        self.text.push_str(text.as_str())
    }

    fn vars(&mut self, vars: &LoopVars) -> Result<(), AllocError> {
        match vars {
            LoopVars::Item(item) => {
                self.text.push_str("loop ")?;
                self.name(item)
            }
            LoopVars::KeyValue(both) => {
                self.begin("loop", both.span)?;
                self.text.push_str(" ")?;
                self.name(&both.key)?;
                self.text.push_str(", ")?;
                self.name(&both.value)
            }
        }
    }

    fn path(&mut self, var: &Var) -> Result<(), AllocError> {
        self.begin("var", var.span())?;
        for member in &var.path {
            self.member(member)?;
        }
        Ok(())
    }

    fn member(&mut self, member: &Member) -> Result<(), AllocError> {
        self.text.push_str(match member.op {
            AccessOp::Direct => " .",
            AccessOp::Optional => " ?.",
        })?;
        match &member.access {
            Access::Index(index) => write!(self.text, "{}", index.value)?,
            Access::Key(name) => self.name(name)?,
        }
        self.part(member.span)
    }

    fn literal(&mut self, literal: &Literal) -> Result<(), AllocError> {
        self.begin("literal", literal.span)?;
        self.text.push_str(" ")?;
        match &literal.value {
            Value::Bool(truth) => self.text.push_str(if *truth { "true" } else { "false" }),
            Value::Integer(number) => write!(self.text, "{number}"),
            Value::String(text) => self.text.push_str(text.as_str()),
            other => self.text.push_str(other.human()),
        }
    }
}
