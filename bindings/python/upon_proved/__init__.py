"""The proved template engine libupon, by its calls for C.

    >>> from upon_proved import render
    >>> render({"hello": "Hello {{ name }}!"}, "hello", {"name": "John"})
    'Hello John!'

Options are given by their names:

- html: whether values are escaped for HTML, the same as escape="html"
- escape: the language that values are escaped for: "html", "json", "shell" or "yaml"
- syntax: the delimiters, as [("expr", "<?", "?>"), ("block", "<%", "%>"), ("comment", "<#", "#>")]
- functions: whether templates may call the standard functions
- max_include_depth: how many templates may be in each other, the first one among them
- max_steps, max_output, max_memory: how many steps, bytes of text, and bytes of values a rendering may take

A context is anything that json.dumps writes as an object or a list, or JSON as bytes. Any thread may call at any time.
"""
import ctypes
import ctypes.util
import json
import os
import re
from typing import Any, Dict, List, Mapping, Optional, Sequence, Tuple, Union

__all__ = ["OutOfMemory", "UponError", "check", "names", "render", "render_text", "version"]

Context = Union[Mapping[str, Any], List[Any], bytes]
Syntax = Sequence[Tuple[str, str, str]]

_RENDERED, _TEMPLATE_ERROR, _TOO_SMALL, _OUT_OF_MEMORY = 0, 1, 4, 5
# The size of the first buffer; a call whose answer is larger is made again with a buffer of the answer's size.
_FIRST = 4096
# The place that a picture shows, and that a refusal names.
_PICTURED = re.compile(r"[^\n]+\n\n +--> (?P<template>.*?):(?P<line>\d+):(?P<column>\d+)\n +\|\n", re.S)
_REFUSED = re.compile(r".* at line (?P<line>\d+) column (?P<column>\d+)\Z", re.S)
# The empty line between two pictures.
_BETWEEN = re.compile(r"(?<=\n)\n(?=[^\n]+\n\n +--> )")


class UponError(Exception):
    """A template has an error, or its rendering ends with one; or an argument is refused.

    kind: the first line of the picture, as "invalid syntax" or "render error"; "refused" if it is an argument
    template: the name of the template, if it has one
    line, column: where it is, from 1, if that is known
    picture: the whole text
    """

    def __init__(self, kind: str, template: Optional[str], line: Optional[int], column: Optional[int], picture: str) -> None:
        super().__init__(kind, template, line, column, picture)
        self.kind = kind
        self.template = template
        self.line = line
        self.column = column
        self.picture = picture

    def __str__(self) -> str:
        return self.picture


class OutOfMemory(MemoryError):
    """Memory is out."""


def render(
    templates: Mapping[str, str],
    name: str,
    context: Context,
    *,
    html: bool = False,
    escape: Optional[str] = None,
    syntax: Optional[Syntax] = None,
    functions: bool = False,
    max_include_depth: Optional[int] = None,
    max_steps: Optional[int] = None,
    max_output: Optional[int] = None,
    max_memory: Optional[int] = None,
) -> str:
    """Renders the template of a name on a context."""
    given = dict(html=html, escape=escape, syntax=syntax, functions=functions, max_include_depth=max_include_depth)
    options = _options(max_steps=max_steps, max_output=max_output, max_memory=max_memory, **given)
    return _answer(_library.upon_render, _json(templates), _json(context), name.encode(), options)


def render_text(
    source: str,
    context: Context,
    *,
    html: bool = False,
    escape: Optional[str] = None,
    syntax: Optional[Syntax] = None,
    functions: bool = False,
    max_include_depth: Optional[int] = None,
    max_steps: Optional[int] = None,
    max_output: Optional[int] = None,
    max_memory: Optional[int] = None,
) -> str:
    """Renders a template's source on a context."""
    given = dict(html=html, escape=escape, syntax=syntax, functions=functions, max_include_depth=max_include_depth)
    options = _options(max_steps=max_steps, max_output=max_output, max_memory=max_memory, **given)
    return _answer(_library.upon_render_text, source.encode(), _json(context), options)


def check(
    templates: Mapping[str, str],
    *,
    html: bool = False,
    escape: Optional[str] = None,
    syntax: Optional[Syntax] = None,
    functions: bool = False,
    max_include_depth: Optional[int] = None,
    samples: Optional[Sequence[Union[Mapping[str, Any], List[Any]]]] = None,
    schema: Optional[Mapping[str, Any]] = None,
    pages: Optional[Sequence[str]] = None,
) -> List[str]:
    """Returns the picture of each error of the templates: if there is none, the empty list.

    With samples, which are contexts, or with a JSON Schema of contexts, also each place is shown where a page may fail on a
    context that is as the samples are, or that is valid by the schema. The pages are the templates of these names, or all.
    """
    given = dict(html=html, escape=escape, syntax=syntax, functions=functions, max_include_depth=max_include_depth)
    options = _options(samples=samples, schema=schema, pages=pages, **given)
    status, text = _call(_library.upon_check, _json(templates), options)
    if status == _TEMPLATE_ERROR:
        return _BETWEEN.split(text)
    _raise_unless_rendered(status, text)
    return []


def names(templates: Mapping[str, str], name: str, *, syntax: Optional[Syntax] = None) -> Dict[str, Any]:
    """Returns what the template of a name needs: the lists "names", "templates" and "missing", and "whole": whether the whole
    context counts."""
    return json.loads(_answer(_library.upon_names, _json(templates), name.encode(), _options(syntax=syntax)))


def version() -> str:
    """Returns the library's version."""
    return _answer(_library.upon_version)


def _json(value: Any) -> bytes:
    """Returns a value as JSON."""
    if isinstance(value, bytes):
        return value
    return json.dumps(value, ensure_ascii=False, allow_nan=False, separators=(",", ":")).encode()


def _options(**options: Any) -> bytes:
    """Returns the options that are given as JSON."""
    return _json({key: value for key, value in options.items() if value is not None and value is not False})


def _answer(function: Any, *texts: bytes) -> str:
    """Makes a call, and returns its answer."""
    status, text = _call(function, *texts)
    _raise_unless_rendered(status, text)
    return text


def _call(function: Any, *texts: bytes) -> Tuple[int, str]:
    """Makes a call, and returns its status and what it wrote."""
    pairs = [part for text in texts for part in (text, len(text))]
    size, status = ctypes.c_size_t(_FIRST), _TOO_SMALL
    while status == _TOO_SMALL:
        out = ctypes.create_string_buffer(size.value)
        status = function(*pairs, out, len(out), size)
    return status, ctypes.string_at(out, size.value).decode()


def _raise_unless_rendered(status: int, text: str) -> None:
    """Raises the error of a status."""
    if status == _RENDERED:
        return
    if status == _OUT_OF_MEMORY:
        raise OutOfMemory("libupon: out of memory")
    place = (_PICTURED if status == _TEMPLATE_ERROR else _REFUSED).match(text)
    found = place.groupdict() if place else {}
    number = lambda part: int(found[part]) if part in found else None
    name = found.get("template")
    kind = text.partition("\n")[0].partition(": ")[0] if status == _TEMPLATE_ERROR else "refused"
    raise UponError(kind, None if name == "<anonymous>" else name, number("line"), number("column"), text)


def _found() -> str:
    """Returns the path or the name of the library: in the folder UPON_LIB, beside this file, or where the system has it."""
    name = "libupon.so.0"
    beside = os.path.join(os.path.dirname(os.path.abspath(__file__)), name)
    if "UPON_LIB" in os.environ:
        return os.path.join(os.environ["UPON_LIB"], name)
    return beside if os.path.exists(beside) else ctypes.util.find_library("upon") or name


def _loaded() -> ctypes.CDLL:
    """Returns the library, with the types of its calls as upon.h has them."""
    library = ctypes.CDLL(_found())
    counts = {"upon_render": 4, "upon_render_text": 3, "upon_check": 2, "upon_names": 3, "upon_version": 0}
    for name, count in counts.items():
        function = getattr(library, name)
        out = [ctypes.c_char_p, ctypes.c_size_t, ctypes.POINTER(ctypes.c_size_t)]
        function.argtypes = [ctypes.c_char_p, ctypes.c_size_t] * count + out
        function.restype = ctypes.c_uint8
    return library


_library = _loaded()
