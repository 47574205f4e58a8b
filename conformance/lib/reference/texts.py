"""Characters: whitespace, names, columns."""
import unicodedata

# The characters that Unicode has as White_Space.
WHITE_SPACE = frozenset([*range(0x9, 0xE), 0x20, 0x85, 0xA0, 0x1680, *range(0x2000, 0x200B), 0x2028, 0x2029, 0x202F, 0x205F,
                         0x3000])
# The whitespace inside tags.
TAG_SPACE = "\t\n\r "


def is_white(letter):
    """Whether a character is whitespace, as trimming has it."""
    return ord(letter) in WHITE_SPACE


def trim_end(text):
    """A text without the whitespace at its end."""
    while text and is_white(text[-1]):
        text = text[:-1]
    return text


def trim_start(text):
    """A text without the whitespace at its start."""
    while text and is_white(text[0]):
        text = text[1:]
    return text


def begins_name(letter):
    """Whether a name may begin with a character: an underscore, or what Unicode has as XID_Start."""
    return letter.isidentifier()


def continues_name(letter):
    """Whether a name may go on with a character: what Unicode has as XID_Continue."""
    return ("a" + letter).isidentifier()


def width_of(letter):
    """How many columns a character takes. The rows have none that joins what is beside it, but for a mark."""
    if unicodedata.category(letter) == "Cc":
        return 1
    if unicodedata.combining(letter) or letter in "\u200b\u200d\ufeff\u00ad":
        return 0
    return 2 if unicodedata.east_asian_width(letter) in "WF" else 1


def columns(text):
    """How many columns a text takes; a carriage return before a line feed takes none."""
    return sum(map(width_of, text.replace("\r\n", "\n")))


def letter_at(source, offset):
    """The character that begins at an offset of a text, which is bytes."""
    return source[offset:offset + 4].decode("utf-8", errors="ignore")[0]


def run_end(source, offset, test):
    """Where the longest run of characters that pass a test ends, from an offset on."""
    while offset < len(source) and test(letter_at(source, offset)):
        offset += len(letter_at(source, offset).encode())
    return offset


def part(source, span):
    """The text at a span."""
    return source[span[0]:span[1]].decode()
