// The calls of libupon, as bindings/c/upon.h has them (checks/header compares them), and one function that makes such a call.
use crate::Error;

extern "C" {
    pub fn upon_render(
        templates: *const u8,
        templates_len: usize,
        context: *const u8,
        context_len: usize,
        name: *const u8,
        name_len: usize,
        options: *const u8,
        options_len: usize,
        out: *mut u8,
        out_len: usize,
        size: *mut usize,
    ) -> u8;

    pub fn upon_render_text(
        source: *const u8,
        source_len: usize,
        context: *const u8,
        context_len: usize,
        options: *const u8,
        options_len: usize,
        out: *mut u8,
        out_len: usize,
        size: *mut usize,
    ) -> u8;

    pub fn upon_check(
        templates: *const u8,
        templates_len: usize,
        options: *const u8,
        options_len: usize,
        out: *mut u8,
        out_len: usize,
        size: *mut usize,
    ) -> u8;

    pub fn upon_names(
        templates: *const u8,
        templates_len: usize,
        name: *const u8,
        name_len: usize,
        options: *const u8,
        options_len: usize,
        out: *mut u8,
        out_len: usize,
        size: *mut usize,
    ) -> u8;

    pub fn upon_version(out: *mut u8, out_len: usize, size: *mut usize) -> u8;
}

// The statuses.
const RENDERED: u8 = 0;
const TEMPLATE_ERROR: u8 = 1;
const REFUSED: u8 = 2;
const NOT_UTF8: u8 = 3;
const TOO_SMALL: u8 = 4;

// The size of the first buffer; a call whose answer is larger is made again with a buffer of the answer's size.
const FIRST: usize = 4096;

// Makes a call, which is given a buffer, its length, and a place for the answer's size, and returns the answer.
pub fn answer(call: impl Fn(*mut u8, usize, *mut usize) -> u8) -> Result<String, Error> {
    let (mut out, mut size, mut status) = (Vec::new(), FIRST, TOO_SMALL);
    while status == TOO_SMALL {
        out.try_reserve_exact(size).map_err(|_| Error::OutOfMemory)?;
        out.resize(size, 0);
        status = call(out.as_mut_ptr(), out.len(), &mut size);
    }
    out.truncate(size);
    let text = String::from_utf8(out).expect("an answer of libupon is UTF-8");
    match status {
        RENDERED => Ok(text),
        TEMPLATE_ERROR => Err(Error::Template(text)),
        REFUSED => Err(Error::Refused(text)),
        NOT_UTF8 => Err(Error::NotUtf8(text)),
        _ => Err(Error::OutOfMemory),
    }
}
