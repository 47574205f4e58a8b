"""How a text is cut into tokens, and its first fault: at each token's start what may not be there is looked for in order."""
from typing import NamedTuple

from . import literals
from .delimiters import best, first
from .rows import KEYWORDS, SIGNS, Row, reason_at_end, reason_for
from .texts import TAG_SPACE, begins_name, continues_name, letter_at, part, run_end

OPENING = {"open bracket": "close bracket", "open brace": "close brace", "open parenthesis": "close parenthesis"}
# The tokens after which a digit begins an index, and those after which it begins a number.
BEGIN_PATH = ("identifier", SIGNS["."], SIGNS["?."])
END_PATH = (SIGNS["("], SIGNS["|"], SIGNS[","], SIGNS[":"], "keyword")
NUMBER_LETTERS = "0123456789abcdefghijklmnopqrstuvwxyzABCDEFGHIJKLMNOPQRSTUVWXYZ_-+."


class Refused(Exception):
    """The first fault of a text: its reason and its span."""

    def __init__(self, reason, span):
        super().__init__(reason)
        self.reason = reason
        self.span = span


class Lexeme(NamedTuple):
    """A token, whether it is a delimiter with the hyphen, and its span."""

    token: str
    hyphen: bool
    span: tuple


class OpenBlock:
    """An open block: its keyword, where its tag is, and whether its `else` was read."""

    def __init__(self, word, span):
        self.word = word
        self.span = span
        self.has_else = False

    def takes(self, closer):
        """Whether it takes a closing tag."""
        if closer == "else if":
            return self.word == "if" and not self.has_else
        if closer == "else":
            return self.word in ("if", "for") and not self.has_else
        return closer == "end" + self.word


class Cutting:
    """A text that is cut from left to right: its tokens so far, its open blocks, and the tag that is open."""

    def __init__(self, source, delimiters):
        self.source = source
        self.delimiters = delimiters
        self.lexemes = []
        self.blocks = []
        self.tag = None

    def run(self):
        """Returns the tokens of the whole text."""
        at = 0
        while at < len(self.source):
            at = self.outside(at)
        if self.blocks:
            raise Refused(f"unclosed `{self.blocks[0].word}` block", self.blocks[0].span)
        return self.lexemes

    def put(self, token, span, hyphen=False):
        """Puts a token, and returns where it ends."""
        self.lexemes.append(Lexeme(token, hyphen, span))
        return span[1]

    def outside(self, at):
        """A raw part or a tag, from an offset outside tags on."""
        found = first(self.delimiters, self.source, at)
        to = found.span[0] if found else len(self.source)
        if at < to:
            return self.put("raw template", (at, to))
        if not found.delimiter.begins:
            raise Refused(f"unexpected {found.delimiter.word()}", found.span)
        self.put(found.delimiter.word(), found.span, found.delimiter.hyphen)
        self.tag = None if found.delimiter.sort == "comment" else Tag(self, found)
        to = self.tag.run() if self.tag else self.comment(found)
        self.tag = None
        return to

    def comment(self, begin):
        """A comment, whose begin was read."""
        at = begin.span[1]
        found = first(self.delimiters, self.source, at)
        to = found.span[0] if found else len(self.source)
        wanted = "end comment" if at < to else "raw template"
        if at < to:
            self.put("raw template", (at, to))
        if not found:
            raise Refused(f"expected {wanted}, found EOF", (to, to))
        if found.delimiter.begins or found.delimiter.sort != "comment":
            raise self.strange(found, begin)
        if at == to:
            raise Refused("expected raw template, found end comment", found.span)
        return self.put("end comment", found.span, found.delimiter.hyphen)

    def strange(self, found, begin):
        """The fault of a delimiter that may not be in a tag or a comment with this begin."""
        if found.delimiter.begins:
            return Refused(f"unclosed {begin.delimiter.word()}", begin.span)
        return Refused(f"unexpected {found.delimiter.word()}", found.span)


class Tag:
    """A tag that is cut: what its tokens are, which may follow, and its open brackets."""

    def __init__(self, cutting, begin):
        self.cutting = cutting
        self.source = cutting.source
        self.begin = begin
        self.row = Row()
        self.row.push(begin.delimiter.word())
        self.tokens = []
        self.brackets = []
        self.in_path = False

    def run(self):
        """Reads the tag to its end, and returns where that is."""
        at = self.begin.span[1]
        while True:
            found = best(self.cutting.delimiters, self.source, at)
            if found:
                return self.end(found)
            if at == len(self.source):
                raise Refused(reason_at_end(self.row.wanted()), (at, at))
            at = self.token(at)

    def end(self, found):
        """The delimiter that ends the tag, or that may not be there."""
        if found.delimiter.begins or found.delimiter.sort != self.begin.delimiter.sort:
            raise self.cutting.strange(found, self.begin)
        if self.brackets:
            raise Refused(f"unclosed {self.brackets[-1][0]}", self.brackets[-1][1])
        self.fit(found.delimiter.word(), found.span)
        if self.begin.delimiter.sort == "block":
            self.block((self.begin.span[0], found.span[1]))
        return self.cutting.put(found.delimiter.word(), found.span, found.delimiter.hyphen)

    def fit(self, symbol, span):
        """Puts a token in the row, if it may follow."""
        if not self.row.push(symbol):
            raise Refused(reason_for(self.row.wanted(), symbol), span)

    def token(self, at):
        """A token inside the tag, and where it ends."""
        letter = letter_at(self.source, at)
        if letter in TAG_SPACE:
            return self.cutting.put("whitespace", (at, run_end(self.source, at, lambda it: it in TAG_SPACE)))
        token, span = self.one_token(letter, at)
        if token in OPENING.values() and not (self.brackets and OPENING[self.brackets[-1][0]] == token):
            raise Refused(f"unexpected {token}", span)
        word = f"'{part(self.source, span)}'" if token == "keyword" else token
        self.fit(word, span)
        self.literal(token, span)
        self.note(token, word, span)
        return self.cutting.put(token, span)

    def one_token(self, letter, at):
        """The kind and the span of the token that begins here, if one does."""
        if self.source.startswith(b"?.", at):
            return SIGNS["?."], (at, at + 2)
        if letter == "?":
            beyond = at + 1
            if beyond < len(self.source):
                beyond += len(letter_at(self.source, beyond).encode())
            raise Refused("unexpected character", (at, beyond))
        if letter in SIGNS:
            return SIGNS[letter], (at, at + 1)
        if letter == '"':
            return "string", (at, self.string_end(at))
        if letter in "0123456789" and self.in_path:
            return "index", (at, run_end(self.source, at, lambda it: it in "0123456789"))
        if letter in "0123456789":
            return "number", (at, run_end(self.source, at, lambda it: it in NUMBER_LETTERS))
        if begins_name(letter):
            span = (at, run_end(self.source, at, continues_name))
            return "keyword" if part(self.source, span) in KEYWORDS else "identifier", span
        raise Refused("unexpected character", (at, at + len(letter.encode())))

    def string_end(self, at):
        """Where a string ends."""
        to = literals.string_end(self.source, at)
        if to is None:
            raise Refused("undelimited string", (at, run_end(self.source, at, lambda it: it not in "\r\n")))
        return to

    def literal(self, token, span):
        """Looks whether a literal denotes something; a number's span is with its sign, but a digit is where it is."""
        signed = bool(self.tokens) and self.tokens[-1][0] in ("plus", "minus")
        try:
            if token == "number":
                literals.integer(part(self.source, span), signed and self.tokens[-1][0] == "minus")
            elif token == "index":
                literals.index(part(self.source, span))
            elif token == "string":
                literals.string(part(self.source, span))
        except literals.Wrong as wrong:
            whole = (self.tokens[-1][2][0], span[1]) if signed and token == "number" else span
            inner = wrong.span and (span[0] + wrong.span[0], span[0] + wrong.span[1])
            raise Refused(wrong.reason, inner or whole) from None

    def note(self, token, word, span):
        """What the token changes: the open brackets, and whether a path has begun."""
        self.tokens.append((token, word, span))
        if token in OPENING:
            self.brackets.append((token, span))
        elif token in OPENING.values():
            self.brackets.pop()
        if token in BEGIN_PATH:
            self.in_path = True
        elif token in END_PATH:
            self.in_path = False

    def block(self, span):
        """What the tag, which is whole, changes of the open blocks."""
        words = [word.strip("'") for token, word, _ in self.tokens[:2] if token == "keyword"]
        blocks = self.cutting.blocks
        if words[0] in ("if", "for", "with"):
            blocks.append(OpenBlock(words[0], span))
        elif words[0] != "include":
            closer = " ".join(words) if words[0] == "else" else words[0]
            if not (blocks and blocks[-1].takes(closer)):
                raise Refused(f"unexpected `{closer}` block", span)
            if closer == "else":
                blocks[-1].has_else = True
            elif closer != "else if":
                blocks.pop()


def cut(source, delimiters):
    """The tokens of a text, or its first fault."""
    return Cutting(source, delimiters).run()
