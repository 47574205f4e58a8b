"""Trees: what the tokens of a text without a fault read as."""
from typing import NamedTuple, Optional

from . import literals
from .cutting import cut
from .rows import SIGNS
from .texts import part, trim_end, trim_start


class Ident(NamedTuple):
    """A name, or a text in quotes, and where it is."""

    text: str
    span: tuple


class Member(NamedTuple):
    """A step of a path: whether by `?.`, a name or an index, where that is, and where all of it is."""

    optional: bool
    access: object
    access_span: tuple
    span: tuple


class Var(NamedTuple):
    """A path."""

    members: tuple

    @property
    def span(self):
        """From the first member to the last."""
        return (self.members[0].span[0], self.members[-1].span[1])


class Literal(NamedTuple):
    """A truth value, an integer or a text."""

    value: object
    span: tuple


class Items(NamedTuple):
    """A list: its values."""

    values: tuple
    span: tuple


class Entries(NamedTuple):
    """A map: its keys with their values."""

    entries: tuple
    span: tuple


class Paren(NamedTuple):
    """An expression in parentheses."""

    inner: object
    span: tuple


class Call(NamedTuple):
    """A call, or, with what it receives, a filter; where its arguments are, if there are some."""

    name: Ident
    receiver: object
    arguments: tuple
    arguments_span: Optional[tuple]
    span: tuple


class Raw(NamedTuple):
    """The shown part of a raw part."""

    span: tuple


class Inline(NamedTuple):
    """An expression that is emitted."""

    expression: object
    span: tuple


class Include(NamedTuple):
    """An include, with the expression after its `with` if there is one."""

    name: Ident
    context: object


class If(NamedTuple):
    """A condition, turned round or not, and its branches; the other one may be none."""

    negated: bool
    condition: object
    body: tuple
    other: Optional[tuple]


class For(NamedTuple):
    """A loop: its names, where they are, what it goes over, its body and its other branch."""

    names: tuple
    names_span: tuple
    iterable: object
    body: tuple
    other: Optional[tuple]


class With(NamedTuple):
    """A name for a value, and the body in which it is bound."""

    expression: object
    name: Ident
    body: tuple


def shown(source, lexemes, place):
    """The shown part of a raw part: trimmed at its end if a begin with the hyphen follows, then at its start."""
    begin, end = lexemes[place].span
    after = lexemes[place + 1] if place + 1 < len(lexemes) else None
    before = lexemes[place - 1] if place else None
    if after and after.hyphen and after.token.startswith("begin"):
        end = begin + len(trim_end(part(source, (begin, end))).encode())
    if before and before.hyphen and before.token.startswith("end"):
        begin = end - len(trim_start(part(source, (begin, end))).encode())
    return (begin, end)


def significant(source, lexemes):
    """The tokens that the grammar reads: no whitespace, no comments, raw parts as they are shown."""
    kept, in_comment = [], False
    for place, it in enumerate(lexemes):
        in_comment = in_comment or it.token == "begin comment"
        if not in_comment and it.token == "raw template":
            kept.append(it._replace(span=shown(source, lexemes, place)))
        elif not in_comment and it.token != "whitespace":
            kept.append(it)
        in_comment = in_comment and it.token != "end comment"
    return kept


class Reader:
    """Tokens that are read from the left, of a text that has no fault."""

    def __init__(self, source, lexemes):
        self.source = source
        self.lexemes = lexemes
        self.place = 0

    def next(self):
        """Takes the next token."""
        self.place += 1
        return self.lexemes[self.place - 1]

    def peek(self, ahead=0):
        """The word of a token that follows: of a keyword `'if'`; none at the end."""
        if self.place + ahead >= len(self.lexemes):
            return None
        it = self.lexemes[self.place + ahead]
        return f"'{part(self.source, it.span)}'" if it.token == "keyword" else it.token

    def goes(self, word):
        """Takes the next token if it is this one, and returns whether it was."""
        if self.peek() == word:
            self.place += 1
            return True
        return False

    def ident(self):
        """A name."""
        it = self.next()
        return Ident(part(self.source, it.span), it.span)

    def text(self):
        """A string as a name for something: what it denotes, quotes in its span."""
        it = self.next()
        return Ident(literals.string(part(self.source, it.span)), it.span)

    # ---- expressions

    def expression(self):
        """An expression with its filters."""
        value = self.base()
        while self.goes("pipe"):
            name = self.ident()
            begin, end = value.span[0], name.span[1]
            arguments, at = (), None
            if self.peek() == "colon":
                colon = self.next().span[0]
                arguments = self.bases()
                end = arguments[-1].span[1]
                at = (colon, end)
            value = Call(name, value, arguments, at, (begin, end))
        return value

    def bases(self):
        """Values with commas between them."""
        values = [self.base()]
        while self.goes("comma"):
            values.append(self.base())
        return tuple(values)

    def base(self):
        """An expression without a filter."""
        word = self.peek()
        if word in ("'true'", "'false'"):
            return Literal(word == "'true'", self.next().span)
        if word == "string":
            return Literal(*self.text())
        if word in ("plus", "minus", "number"):
            return self.number()
        if word == "open bracket":
            return self.items()
        if word == "open brace":
            return self.entries()
        if word == "open parenthesis":
            begin = self.next().span[0]
            inner = self.expression()
            return Paren(inner, (begin, self.next().span[1]))
        return self.call() if self.peek(1) == "open parenthesis" and word == "identifier" else self.path()

    def number(self):
        """A number, its sign counted in."""
        begin = self.lexemes[self.place].span[0]
        minus = self.peek() == "minus"
        if self.peek() != "number":
            self.next()
        it = self.next()
        return Literal(literals.integer(part(self.source, it.span), minus), (begin, it.span[1]))

    def items(self):
        """A list; a comma may end it."""
        begin, values = self.next().span[0], []
        while self.peek() != "close bracket":
            values.append(self.base())
            self.goes("comma")
        return Items(tuple(values), (begin, self.next().span[1]))

    def entries(self):
        """A map; a comma may end it."""
        begin, entries = self.next().span[0], []
        while self.peek() != "close brace":
            key = self.text()
            self.next()
            entries.append((key, self.base()))
            self.goes("comma")
        return Entries(tuple(entries), (begin, self.next().span[1]))

    def call(self):
        """A call; its arguments are from its name to the last of them."""
        name = self.ident()
        self.next()
        arguments = () if self.peek() == "close parenthesis" else self.bases()
        at = (name.span[0], arguments[-1].span[1]) if arguments else None
        return Call(name, None, arguments, at, (name.span[0], self.next().span[1]))

    def path(self):
        """A path: a bare first name has the operator `.`."""
        members = []
        if self.peek() == "identifier":
            name = self.ident()
            members.append(Member(False, name.text, name.span, name.span))
        while self.peek() in (SIGNS["."], SIGNS["?."]):
            op, it = self.next(), self.next()
            text = part(self.source, it.span)
            access = literals.index(text) if it.token == "index" else text
            members.append(Member(op.token == SIGNS["?."], access, it.span, (op.span[0], it.span[1])))
        return Var(tuple(members))

    # ---- statements

    def statements(self, *ends):
        """Statements up to a tag that begins with one of these keywords, or to the end."""
        read = []
        while self.peek() is not None and not (self.peek() == "begin block" and self.peek(1) in ends):
            read.append(self.statement())
        return tuple(read)

    def statement(self):
        """One statement."""
        it = self.next()
        if it.token == "raw template":
            return Raw(it.span)
        if it.token == "begin expression":
            value = self.expression()
            return Inline(value, (it.span[0], self.next().span[1]))
        word = self.peek()
        self.next()
        readers = {"'if'": self.condition, "'for'": self.loop, "'with'": self.binding, "'include'": self.include}
        return readers[word]()

    def closer(self):
        """Takes the begin and the keyword of a closing tag, and returns the keyword."""
        self.next()
        return part(self.source, self.next().span)

    def include(self):
        """What follows `include`."""
        name = self.text()
        context = self.expression() if self.goes("'with'") else None
        self.next()
        return Include(name, context)

    def condition(self):
        """What follows `if`: one `endif` ends a chain of `else if`."""
        negated = self.goes("'not'")
        value = self.expression()
        self.next()
        body, other = self.statements("'else'", "'endif'"), None
        if self.closer() == "else":
            if self.goes("'if'"):
                return If(negated, value, body, (self.condition(),))
            self.next()
            other = self.statements("'endif'")
            self.closer()
        self.next()
        return If(negated, value, body, other)

    def loop(self):
        """What follows `for`."""
        names = [self.ident()]
        if self.goes("comma"):
            names.append(self.ident())
        self.next()
        iterable = self.expression()
        self.next()
        body, other = self.statements("'else'", "'endfor'"), None
        if self.closer() == "else":
            self.next()
            other = self.statements("'endfor'")
            self.closer()
        self.next()
        return For(tuple(names), (names[0].span[0], names[-1].span[1]), iterable, body, other)

    def binding(self):
        """What follows `with`."""
        value = self.expression()
        self.next()
        name = self.ident()
        self.next()
        body = self.statements("'endwith'")
        self.closer()
        self.next()
        return With(value, name, body)


def tree_of(source, delimiters):
    """The tree of a text, or its first fault."""
    return Reader(source, significant(source, cut(source, delimiters))).statements()
