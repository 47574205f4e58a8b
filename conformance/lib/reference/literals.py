"""Literals: what the text of a number, an index or a string denotes, and what is wrong with it."""
LOWEST, GREATEST = -2**63, 2**63 - 1
ESCAPES = {"n": "\n", "r": "\r", "t": "\t", "\\": "\\", '"': '"'}
DIGITS = {**{str(n): n for n in range(10)}, **{chr(97 + n): 10 + n for n in range(26)},
          **{chr(65 + n): 10 + n for n in range(26)}}


class Wrong(Exception):
    """What is wrong with a literal: the reason, and the offsets in its text, none for the whole literal."""

    def __init__(self, reason, span=None):
        super().__init__(reason)
        self.reason = reason
        self.span = span


def base_of(text):
    """A number's base, and where its digits begin."""
    bases = {"0b": 2, "0o": 8, "0x": 16}
    return (bases[text[:2]], 2) if text[:2] in bases else (10, 0)


def integer(text, minus):
    """The integer that a number's text denotes, after a minus or not; digits are tested from the left."""
    if any(letter in ".+-" for letter in text):
        raise Wrong("invalid float literal")
    base, begin = base_of(text)
    limit, value = (-LOWEST if minus else GREATEST), 0
    for offset, letter in enumerate(text[begin:], begin):
        if letter == "_":
            continue
        digit = DIGITS.get(letter, 36)
        if digit >= base:
            raise Wrong(f"invalid digit for base {base} literal", (offset, offset + 1))
        value = value * base + digit
        if value > limit:
            raise Wrong(f"base {base} literal out of range for 64-bit integer")
    return -value if minus else value


def index(text):
    """The index that digits denote."""
    if int(text) >= 2**64:
        raise Wrong("base 10 literal out of range for unsigned 64-bit integer")
    return int(text)


def string_end(source, at):
    """Where the string that begins at an offset ends, none if it does not: a backslash takes the next character with it."""
    text, offset = source[at:].decode(), 1
    while offset < len(text) and text[offset] not in '"\r\n':
        if text[offset] == "\\":
            offset += 1
            if text[offset:offset + 1] in ("\r", "\n"):
                return None
        offset += 1
    return at + len(text[:offset + 1].encode()) if text[offset:offset + 1] == '"' else None


def string(text):
    """The text that a string denotes."""
    inner, denoted, offset = text[1:-1], [], 1
    letters = iter(inner)
    for letter in letters:
        offset += len(letter.encode())
        if letter == "\\":
            letter = next(letters)
            if letter not in ESCAPES:
                raise Wrong("unknown escape character", (offset, offset + len(letter.encode())))
            offset += len(letter.encode())
            letter = ESCAPES[letter]
        denoted.append(letter)
    return "".join(denoted)
