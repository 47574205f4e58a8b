"""Ports that are wrong: the definitions with one rule changed, and the subject whose cases see it."""
import contextlib

from reference import answers, callables, cutting, delimiters, faults, literals, meaning, rows, texts, trees, values


def trims_nothing(source, lexemes, place):
    """Text beside a hyphen stays as it is."""
    return lexemes[place].span


def trims_blank_parts(source, lexemes, place):
    """A raw part is trimmed only if it is whitespace alone."""
    begin, end = lexemes[place].span
    return (begin, end) if not texts.part(source, (begin, end)).isspace() else (begin, begin)


def one_column_off(source, span):
    """Columns are one too large."""
    number, column, width, line = PICTURE(source, span)
    return number, column + 1, width, line


def lines_end_at_returns(source, span):
    """A carriage return ends a line."""
    return PICTURE(source.replace(b"\r", b"\n"), span)


def counts_bytes(text):
    """Columns are bytes."""
    return len(text.encode())


def counts_letters(text):
    """Columns are characters."""
    return len(text)


def last_wanted(row):
    """Of what is wanted the last is reported."""
    return [it for it in rows.WANTED if row.takes(it[2])][-1]


def plain_end(wanted):
    """The end of the text is reported as a token is."""
    return f"expected {wanted[0]}, found EOF"


def keywords_as_tokens(wanted, token):
    """A keyword is reported as other tokens are."""
    return f"expected {wanted[0]}, found {'keyword' if token[0] == chr(39) else token}"


def shortest(listed, source, at):
    """The shortest delimiter is taken."""
    there = [it for it in listed if source.startswith(it.text, at)]
    return delimiters.Found(min(there, key=lambda it: len(it.text)),
                            (at, at + min(len(it.text) for it in there))) if there else None


def last_listed(listed, source, at):
    """Of equal delimiters the one listed last is taken."""
    return BEST(listed[::-1], source, at)


def to_next_quote(source, at):
    """A string ends at the next quote, also after a backslash."""
    to = source.find(b'"', at + 1)
    return to + 1 if to >= 0 and b"\n" not in source[at:to] and b"\r" not in source[at:to] else None


def first_key(entries):
    """Of equal keys the first counts."""
    return IN_ORDER(list(entries)[::-1]) if isinstance(entries, list) else IN_ORDER(entries)


def unordered(entries):
    """A map goes in the order in which it is written."""
    return dict(entries)


def empty_is_true(value):
    """An empty map and an empty list are true."""
    return value not in (None, False, 0, "")


def outward(bindings, root, members):
    """A miss by `?.` in a binding goes on outward."""
    for binding in bindings:
        if binding.name == members[0].access:
            found = values.bound(binding, members[1:])
            if found is not None or not any(it.optional for it in members[1:]):
                return found
    return LOOKUP((), root, members)


def variables_first(bindings, root, members):
    """A loop's variable named `loop` is ahead of its state."""
    return LOOKUP(tuple(sorted(bindings, key=lambda it: isinstance(it, values.State))), root, members)


def through_include(self, it, place, running):
    """What is bound outside is seen after `include .. with` too."""
    if it.context is None:
        return INCLUDE(self, it, place, running)
    value = self.value(it.context, place)
    return INCLUDE(self, it._replace(context=None), meaning.Place(place.bindings, value), running)


def depth_first(self, it, place, running):
    """The depth is tested before the name is looked up."""
    if running.left == 0:
        raise faults.Fault("render error", f"reached maximum include depth ({self.engine.depth})")
    return INCLUDE(self, it, place, running)


def one_deeper(self, name, source, tree, root):
    """The template itself does not count."""
    self.statements(tree, meaning.Place((), root), meaning.Running(name, source, max(self.engine.depth, 1)))


def drops_text(self, formatter, value, span):
    """What a formatter writes before it refuses is lost."""
    try:
        self.write(formatter.text(value))
    except callables.Declined as declined:
        raise faults.Fault("format error", declined.message, span) from None


def name_first(self, it, place):
    """The name is looked up before the values."""
    if it.name.text not in self.engine.callables:
        raise faults.Fault("render error", "unknown function", it.name.span)
    return GIVEN(self, it, place)


def other_always(self, it, place, running):
    """The other branch of a loop is rendered after items too."""
    LOOP(self, it, place, running)
    if it.other and meaning.items_of(it, self.value(it.iterable, place)):
        self.statements(it.other, place, running)


def types_first(function, name, given, whole):
    """Arguments are tested before their number."""
    for type_word, (value, span) in zip(function.types, given):
        wrong = callables.misfit(type_word, value)
        if wrong:
            raise faults.Fault("render error", f"function `{name}` expects {wrong}", span)
    return ANSWER(function, name, given, whole)


def innermost(self):
    """Of open blocks the innermost is reported."""
    try:
        return RUN(self)
    except cutting.Refused as refused:
        if refused.reason.startswith("unclosed `"):
            raise cutting.Refused(f"unclosed `{self.blocks[-1].word}` block", self.blocks[-1].span) from None
        raise


def keeps_path(self, token, word, span):
    """A keyword does not end a path."""
    before = self.in_path
    NOTE(self, token, word, span)
    if token == "keyword":
        self.in_path = before


def no_else(self, closer):
    """A loop takes no `else`."""
    return TAKES(self, closer) and not (closer == "else" and self.word == "for")


def no_name(self, name, source):
    """An error bears no template's name."""
    return INSIDE(self, None, source)


def error_stays(self):
    """The reason is not shown below the picture."""
    return PRETTY(self).partition(" = reason")[0]


def from_zero(text, minus):
    """A prefix alone is no number."""
    if text.strip("_") in ("0b", "0o", "0x"):
        raise literals.Wrong("invalid digit for base 10 literal", (1, 2))
    return INTEGER(text, minus)


PICTURE, BEST, IN_ORDER, LOOKUP = faults.picture, delimiters.best, values.in_order, values.lookup
INCLUDE, GIVEN, LOOP, ANSWER = meaning.Meaning.include, meaning.Meaning.given, meaning.Meaning.loop, meaning.answer
RUN, NOTE, TAKES, INSIDE = cutting.Cutting.run, cutting.Tag.note, cutting.OpenBlock.takes, faults.Fault.inside
PRETTY, INTEGER = faults.Fault.pretty, literals.integer
# Each wrong port: the rule that is changed, where it is, and the subject whose cases see it.
WRONG = [
    (trims_nothing, [(trees, "shown")], "trimming"),
    (trims_blank_parts, [(trees, "shown")], "trimming"),
    (one_column_off, [(faults, "picture")], "pictures"),
    (lines_end_at_returns, [(faults, "picture")], "pictures"),
    (counts_bytes, [(faults, "columns")], "pictures"),
    (counts_letters, [(faults, "columns")], "pictures"),
    (last_wanted, [(rows.Row, "wanted")], "points"),
    (plain_end, [(cutting, "reason_at_end")], "points"),
    (keywords_as_tokens, [(cutting, "reason_for")], "points"),
    (shortest, [(delimiters, "best"), (cutting, "best")], "delimiters"),
    (last_listed, [(delimiters, "best"), (cutting, "best")], "delimiters"),
    (to_next_quote, [(literals, "string_end")], "literals"),
    (from_zero, [(literals, "integer")], "literals"),
    (first_key, [(meaning, "in_order")], "literals"),
    (unordered, [(meaning, "in_order"), (answers, "in_order")], "literals"),
    (empty_is_true, [(meaning, "is_true")], "blocks"),
    (innermost, [(cutting.Cutting, "run")], "blocks"),
    (outward, [(meaning, "lookup")], "loops"),
    (variables_first, [(meaning, "lookup")], "loops"),
    (other_always, [(meaning.Meaning, "loop")], "loops"),
    (no_else, [(cutting.OpenBlock, "takes")], "loops"),
    (keeps_path, [(cutting.Tag, "note")], "literals"),
    (through_include, [(meaning.Meaning, "include")], "includes"),
    (depth_first, [(meaning.Meaning, "include")], "includes"),
    (one_deeper, [(meaning.Meaning, "template")], "includes"),
    (no_name, [(faults.Fault, "inside")], "includes"),
    (drops_text, [(meaning.Meaning, "format")], "calls"),
    (name_first, [(meaning.Meaning, "given")], "calls"),
    (types_first, [(meaning, "answer")], "calls"),
    (error_stays, [(faults.Fault, "pretty")], "pictures"),
]


@contextlib.contextmanager
def changed(rule, places):
    """The definitions with a rule in the place of another."""
    kept = [(holder, name, getattr(holder, name)) for holder, name in places]
    for holder, name, _ in kept:
        setattr(holder, name, rule)
    try:
        yield
    finally:
        for holder, name, right in kept:
            setattr(holder, name, right)
