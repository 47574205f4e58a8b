// Libraries of texts that are written out.
use std::alloc::{AllocError, Global};
use std::borrow::CowStr;
use std::io;
use upon::Engine;
use upon_tool_messages::judge::Declared;
use upon_tool_io::files::read_text;
use upon_tool_messages::library::{Library, Refusal};

/// Adds files to an engine, of which each has its name and its bytes; returns their library, with one more file that
/// can't be read.
pub fn library(
    alloc: Global,
    engine: &mut Engine<'_>,
    files: &[(&str, &[u8])],
) -> Result<Library, AllocError> {
    let none = Declared {
        functions: [].as_slice(),
        has_verbatim: false,
        others: [].as_slice(),
    };
    library_calling(alloc, engine, none, files)
}

/// Does the same, with what templates may call.
pub fn library_calling(
    alloc: Global,
    engine: &mut Engine<'_>,
    callables: Declared<'static>,
    files: &[(&str, &[u8])],
) -> Result<Library, AllocError> {
    let mut library = Library::new(alloc, callables);
    for (name, bytes) in files {
        let mut reader = *bytes;
        let refusal = match read_text(alloc, &mut reader) {
            Ok(text) => {
                let added = engine.add_template(CowStr::Borrowed(name), CowStr::Owned(text));
                Refusal::of_added(added)?
            }
            Err(fault) => Some(Refusal::of_read(fault)?),
        };
        library.add(name, refusal)?;
    }
    library.add("unreadable", Some(Refusal::Unreadable(io::ErrorKind::NotFound.into())))?;
    Ok(library)
}
