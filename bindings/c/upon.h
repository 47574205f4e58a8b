/* libupon, the proved template engine: its calls for C. docs/C.md says how to link it, and what is proved of it.

   Each text is bytes in UTF-8 with a length, without a zero at its end. A call takes its texts, and then `out`, a buffer of
   `out_len` bytes. It writes its answer to the begin of `out`, and the length of that to `*size`.

   What must hold while a call runs:
   - a text's pointer leads to as many bytes as its length says, which nothing changes; null with length 0 is the empty text;
   - `out` leads to `out_len` bytes that nothing else reads or writes; it may be null if `out_len` is 0;
   - `size` leads to a size_t that nothing else reads or writes. Texts, `out` and `*size` share no byte.

   Nothing is kept between calls, so that any thread may call at any time. Whatever bytes the texts hold, a call returns one of
   the statuses below, and writes nothing else than it says there. */
#ifndef UPON_H
#define UPON_H

#include <stddef.h>
#include <stdint.h>

#ifdef __cplusplus
extern "C" {
#endif

/* What a call returns. The bytes of `out` after the answer are as they were. */
enum upon_status {
    /* The answer is in `out`. */
    UPON_RENDERED = 0,
    /* A template has an error, or its rendering ends with one: its picture, with the template's name, line and column. */
    UPON_TEMPLATE_ERROR = 1,
    /* An argument is refused: which, and why, as `context: invalid JSON at line 1 column 5`. Columns are in bytes. */
    UPON_REFUSED = 2,
    /* A text is not UTF-8: which, as `context is not UTF-8`. */
    UPON_NOT_UTF8 = 3,
    /* The answer has more bytes than `out`: `*size` says how many, and `out` is as it was. With so many it is answered. */
    UPON_TOO_SMALL = 4,
    /* Memory is out: `*size` is 0, and `out` is as it was. */
    UPON_OUT_OF_MEMORY = 5
};

/* Of the calls below
   - `templates` is an object of JSON with a source at each name: {"page": "Hello {{ name }}!"}. The empty text is {};
   - `context` is an object of JSON, or a list, which templates have as `items`. The empty text is {};
   - `options` is an object of JSON, with any of these keys. The empty text is {}.
       "escape": "html"                 escapes each value for "html", "json", "shell" or "yaml"; `{{ a | verbatim }}` does not
       "html": true                     is the same as "escape": "html"
       "syntax": [["expr", "<?", "?>"]] sets the delimiters of "expr", and, if they are given, of "block" and "comment"
       "functions": true                lets templates call the standard functions
       "max_include_depth": 8           sets how many templates may be in each other, the first one among them; else 64
       "max_steps": 1000                ends a rendering that takes more steps,
       "max_output": 1000               .. writes more bytes,
       "max_memory": 1000               .. or makes more bytes of values
     Those of upon_check may also have contexts, by one of the first two keys, and the names of pages.
       "samples": [{"name": "John"}]    are contexts: objects, or lists
       "schema": {"type": "object"}     is a JSON Schema of contexts
       "pages": ["page"]                are the templates that are rendered on them; else all are */

/* Renders the template `name` of `templates` on `context`. The answer is its text. Each of `templates` has to be one, also
   those that it does not include. */
uint8_t upon_render(const uint8_t *templates, size_t templates_len, const uint8_t *context, size_t context_len,
                    const uint8_t *name, size_t name_len, const uint8_t *options, size_t options_len,
                    uint8_t *out, size_t out_len, size_t *size);

/* Renders the template whose source is `source` on `context`. The answer is its text. It has no name, and no template to
   include. */
uint8_t upon_render_text(const uint8_t *source, size_t source_len, const uint8_t *context, size_t context_len,
                         const uint8_t *options, size_t options_len, uint8_t *out, size_t out_len, size_t *size);

/* Looks for errors in all of `templates`, and for includes that name none of them; and, if there are none and `options` has
   contexts, for places where a page may fail on a context that is as the samples are, or that is valid by the schema. If it
   finds nothing, it returns UPON_RENDERED, and the answer is empty; else UPON_TEMPLATE_ERROR, and the answer is the pictures,
   an empty line between two. */
uint8_t upon_check(const uint8_t *templates, size_t templates_len, const uint8_t *options, size_t options_len,
                   uint8_t *out, size_t out_len, size_t *size);

/* Lists what the template `name` of `templates` needs. The answer is an object of JSON: the names of the context that can
   count, the templates that it reaches, those of them that are missing, and whether the whole context counts, as
   {"missing":[],"names":["name"],"templates":[],"whole":false}. */
uint8_t upon_names(const uint8_t *templates, size_t templates_len, const uint8_t *name, size_t name_len,
                   const uint8_t *options, size_t options_len, uint8_t *out, size_t out_len, size_t *size);

/* The answer is the library's version: 0.11.0. */
uint8_t upon_version(uint8_t *out, size_t out_len, size_t *size);

#ifdef __cplusplus
}
#endif

#endif
