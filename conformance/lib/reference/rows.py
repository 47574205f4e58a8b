"""The grammar of tags as data, and which tokens may follow those of a tag that has begun.

A row of tokens begins a tag if some tag begins with it: it is read as Earley does, whose last set is empty exactly if it does
not. Of a keyword the word counts, of other tokens the kind alone.
"""
KEYWORDS = "if not else endif for in endfor with as endwith include true false".split()
# The tokens that are one character each, and `?.`.
SIGNS = {
    ".": "member access operator", "?.": "optional member access operator", "|": "pipe", ",": "comma", ":": "colon",
    "+": "plus", "-": "minus", "[": "open bracket", "]": "close bracket", "{": "open brace", "}": "close brace",
    "(": "open parenthesis", ")": "close parenthesis",
}
# A rule in a line: words in lower case and signs are tokens, `'if'` is a keyword, names in upper case are rules.
RULES = """
    TAG = begin-expression EXPR end-expression
    TAG = BLOCK 'include' string end-block | BLOCK 'include' string 'with' EXPR end-block
    TAG = BLOCK 'if' COND end-block | BLOCK 'else' 'if' COND end-block
    TAG = BLOCK 'for' VARS 'in' EXPR end-block | BLOCK 'with' EXPR 'as' identifier end-block
    TAG = BLOCK 'else' end-block | BLOCK 'endif' end-block | BLOCK 'endfor' end-block | BLOCK 'endwith' end-block
    BLOCK = begin-block
    COND = EXPR | 'not' EXPR
    VARS = identifier | identifier , identifier
    EXPR = BASE | EXPR pipe identifier | EXPR pipe identifier : ARGS
    ARGS = BASE | ARGS , BASE
    BASE = 'true' | 'false' | number | + number | - number | string
    BASE = PATH | CALL | LIST | MAP | ( EXPR )
    PATH = identifier | MEMBER | PATH MEMBER
    MEMBER = OP identifier | OP index
    OP = . | ?.
    CALL = identifier ( ) | identifier ( ARGS )
    LIST = [ ] | [ ARGS ] | [ ARGS , ]
    MAP = { } | { ITEMS } | { ITEMS , }
    ITEMS = string : BASE | ITEMS , string : BASE
"""
# What a tag can want, the one that is reported first before the others: its words, those at the end of the text, and the
# token that shows that it may be.
WANTED = [
    ("expression", "token", "open bracket"),
    ("string", "string", "string"),
    ("identifier or index", "token", "index"),
    ("end expression", "end expression", "end expression"),
    ("end block", "end block", "end block"),
    ("close parenthesis", "close parenthesis", "close parenthesis"),
    ("close bracket", "close bracket", "close bracket"),
    ("close brace", "close brace", "close brace"),
    ("in", "keyword", "'in'"),
    ("as", "keyword", "'as'"),
    ("keyword", "keyword", "'endif'"),
    ("identifier", "identifier", "identifier"),
    ("number", "number", "number"),
    ("colon", "colon", "colon"),
]


def grammar():
    """The rules: for each name what it may be, each a tuple of tokens and names."""
    rules = {}
    for line in RULES.strip().splitlines():
        name, _, choices = line.strip().partition(" = ")
        for choice in choices.split(" | "):
            symbols = [SIGNS.get(word, word.replace("-", " ") if len(word) > 1 else word) for word in choice.split()]
            rules.setdefault(name, []).append(tuple(symbols))
    return rules


GRAMMAR = grammar()


class Row:
    """The tokens of a tag that has begun."""

    def __init__(self):
        self.sets = [self.closed([("TAG", choice, 0, 0) for choice in GRAMMAR["TAG"]], [])]

    def closed(self, items, sets):
        """The items with all that they expect and complete; no rule is empty."""
        closed, place = list(dict.fromkeys(items)), len(sets)
        known = set(closed)
        for name, symbols, done, origin in closed:
            if done == len(symbols):
                waiting = sets[origin]
                more = [(n, s, d + 1, o) for n, s, d, o in waiting if d < len(s) and s[d] == name]
            else:
                more = [(symbols[done], choice, 0, place) for choice in GRAMMAR.get(symbols[done], [])]
            closed += [item for item in dict.fromkeys(more) if item not in known]
            known.update(more)
        return closed

    def with_one(self, token):
        """The set after a token; it is empty if the token may not follow."""
        moved = [(n, s, d + 1, o) for n, s, d, o in self.sets[-1] if d < len(s) and s[d] == token]
        return self.closed(moved, self.sets)

    def takes(self, token):
        """Whether a token may follow."""
        return bool(self.with_one(token))

    def push(self, token):
        """Puts a token, if it may follow, and returns whether it may."""
        after = self.with_one(token)
        if after:
            self.sets.append(after)
        return bool(after)

    def wanted(self):
        """What is wanted here: of all that may follow the one that is reported first."""
        return next(it for it in WANTED if self.takes(it[2]))


def reason_for(wanted, token):
    """What is reported of a token that may not follow; a keyword is written in quotes."""
    words, at_end, _ = wanted
    if not token.startswith("'"):
        return f"expected {at_end if words in ('in', 'as') else words}, found {token}"
    keyword = f"`{token[1:-1]}`"
    if words in ("in", "as"):
        return f"expected keyword `{words}`, found keyword {keyword}"
    if words in ("expression", "keyword"):
        return f"unexpected keyword {keyword}"
    return f"expected {words}, found keyword"


def reason_at_end(wanted):
    """What is reported where the text ends."""
    return f"expected {wanted[1]}, found EOF"
