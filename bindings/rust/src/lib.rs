//! The proved template engine libupon, as safe calls over those of C.
//!
//! A context is a text of JSON: `serde_json::json!({"name": "John"}).to_string()` makes one.
//!
//! ```
//! let text = upon_proved::render_text("Hello {{ name }}!", r#"{"name": "John"}"#, &Default::default());
//! assert_eq!(text.unwrap(), "Hello John!");
//! ```

mod calls;
mod options;

pub use options::{Contexts, Options};

use calls::answer;
use options::{object, text};
use std::fmt;

/// Why a call has no answer.
#[derive(Clone, Debug, PartialEq, Eq)]
pub enum Error {
    /// A template has an error, or its rendering ends with one; its picture.
    Template(String),
    /// The templates, the context or the options are refused; which, why and where.
    Refused(String),
    /// An argument is not UTF-8; which. Safe code can't reach it, as `&str` is UTF-8.
    NotUtf8(String),
    /// Memory is out.
    OutOfMemory,
}

impl fmt::Display for Error {
    fn fmt(&self, f: &mut fmt::Formatter<'_>) -> fmt::Result {
        f.write_str(match self {
            Error::Template(reason) | Error::Refused(reason) | Error::NotUtf8(reason) => reason,
            Error::OutOfMemory => "out of memory",
        })
    }
}

impl std::error::Error for Error {}

/// Renders the template of a name on a context of JSON. The templates are pairs of a name and a source.
pub fn render(templates: &[(&str, &str)], name: &str, context: &str, options: &Options) -> Result<String, Error> {
    let (templates, options) = (sources(templates), options.to_json());
    // SAFETY: each pointer and length is of a text that lives until the call returns, or of the buffer of `answer`.
    answer(|out, out_len, size| unsafe {
        calls::upon_render(
            templates.as_ptr(),
            templates.len(),
            context.as_ptr(),
            context.len(),
            name.as_ptr(),
            name.len(),
            options.as_ptr(),
            options.len(),
            out,
            out_len,
            size,
        )
    })
}

/// Renders a template's source on a context of JSON.
pub fn render_text(source: &str, context: &str, options: &Options) -> Result<String, Error> {
    let options = options.to_json();
    // SAFETY: as in `render`.
    answer(|out, out_len, size| unsafe {
        calls::upon_render_text(
            source.as_ptr(),
            source.len(),
            context.as_ptr(),
            context.len(),
            options.as_ptr(),
            options.len(),
            out,
            out_len,
            size,
        )
    })
}

/// Looks for errors in all templates. The pictures of those that it finds are one text, an empty line between two.
pub fn check(templates: &[(&str, &str)], options: &Options) -> Result<(), Error> {
    checked(templates, &options.to_json())
}

/// Looks for errors in all templates, and, if there are none, for places where pages may fail on contexts. The pages are the
/// templates of these names, or all.
pub fn check_on(
    templates: &[(&str, &str)],
    contexts: &Contexts,
    pages: Option<&[&str]>,
    options: &Options,
) -> Result<(), Error> {
    checked(templates, &options.to_json_on(contexts, pages))
}

// Checks templates by options that are JSON.
fn checked(templates: &[(&str, &str)], options: &str) -> Result<(), Error> {
    let templates = sources(templates);
    // SAFETY: as in `render`.
    answer(|out, out_len, size| unsafe {
        calls::upon_check(templates.as_ptr(), templates.len(), options.as_ptr(), options.len(), out, out_len, size)
    })
    .map(|_| ())
}

/// Returns what the template of a name needs, as an object of JSON with the keys `missing`, `names`, `templates` and `whole`.
pub fn names(templates: &[(&str, &str)], name: &str, options: &Options) -> Result<String, Error> {
    let (templates, options) = (sources(templates), options.to_json());
    // SAFETY: as in `render`.
    answer(|out, out_len, size| unsafe {
        calls::upon_names(
            templates.as_ptr(),
            templates.len(),
            name.as_ptr(),
            name.len(),
            options.as_ptr(),
            options.len(),
            out,
            out_len,
            size,
        )
    })
}

/// Returns the library's version.
pub fn version() -> Result<String, Error> {
    // SAFETY: as in `render`.
    answer(|out, out_len, size| unsafe { calls::upon_version(out, out_len, size) })
}

// The templates as JSON.
fn sources(templates: &[(&str, &str)]) -> String {
    object(templates.iter().map(|(name, source)| (*name, text(source))))
}
