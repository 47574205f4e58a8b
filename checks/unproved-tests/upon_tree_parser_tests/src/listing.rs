// What the texts of trees share: after each part, in angle brackets, is what its source has at its place.
use std::alloc::{AllocError, Global};
use upon_tree::ast::{Ident, LoopVars, String as Quoted};
use upon_types::types::Span;

/// A source, and the text so far of a tree of it.
#[derive(Drop)]
pub struct Listing<'s> {
    source: &'s str,
    text: String,
}

impl<'s> Listing<'s> {
    /// Creates the empty text of a tree of a source.
    pub fn new(alloc: Global, source: &'s str) -> Listing<'s> {
        Listing {
            source,
            text: String::new(alloc),
        }
    }

    /// Returns the text.
    pub fn finish(self) -> String {
        let Listing { text, .. } = self;
        text
    }

    /// Adds a word.
    pub fn add(&mut self, word: &str) -> Result<(), AllocError> {
        self.text.push_str(word)
    }

    /// Adds a word and a place.
    pub fn add_at(&mut self, word: &str, span: Span) -> Result<(), AllocError> {
        let part = self.source.get(span.m..span.n);
        let part = part.unwrap_or("no part of the source");
        write!(self.text, "{word}<{part}>")
    }

    /// Adds a number and its place.
    pub fn number(&mut self, number: i64, span: Span) -> Result<(), AllocError> {
        write!(self.text, "{number}")?;
        self.add_at("", span)
    }

    /// Adds a name.
    pub fn name(&mut self, ident: &Ident) -> Result<(), AllocError> {
        self.add_at(ident.name.as_str(), ident.span)
    }

    /// Adds a text in quotes, as what it says.
    pub fn quoted(&mut self, quoted: &Quoted) -> Result<(), AllocError> {
        self.add_at(quoted.as_str(), quoted.span)
    }

    /// Adds the names that a loop gives; after two of them the place of both.
    pub fn vars(&mut self, vars: &LoopVars) -> Result<(), AllocError> {
        match vars {
            LoopVars::Item(item) => self.name(item),
            LoopVars::KeyValue(both) => {
                self.name(&both.key)?;
                self.add(", ")?;
                self.name(&both.value)?;
                self.add_at("@", both.span)
            }
        }
    }
}
