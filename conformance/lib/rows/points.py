"""What may be at each point of a tag, and what is reported of all else: each point with each token."""
from reference.rows import KEYWORDS, SIGNS

from . import row

# What may begin a value, and what may follow a name, a later member, and any other value, before what ends them.
BASE = "'true' 'false' + - number string identifier . ?. [ { ("
NAME, MEMBER = "( . ?.", ". ?."

# Each point: the text up to it, the tokens that may be there, and the word that is reported.
TAGS = [
    ("{{ ", BASE, "expression"),
    ("{% ", "'if' 'else' 'endif' 'for' 'endfor' 'with' 'endwith' 'include'", "keyword"),
    ("{% if ", BASE + " 'not'", "expression"),
    ("{% if 1 %}{% else if ", BASE + " 'not'", "expression"),
    ("{% if not ", BASE, "expression"),
    ("{% if 1 %}{% else if not ", BASE, "expression"),
    ("{% if 1 %}{% else ", "'if' %}", "end block"),
    ("{% if 1 %}{% endif ", "%}", "end block"),
    ("{% for x in [] %}{% endfor ", "%}", "end block"),
    ("{% with 1 as x %}{% endwith ", "%}", "end block"),
    ("{% for ", "identifier", "identifier"),
    ("{% for x ", ", 'in'", "in"),
    ("{% for x, ", "identifier", "identifier"),
    ("{% for x, y ", "'in'", "in"),
    ("{% for x in ", BASE, "expression"),
    ("{% for x, y in ", BASE, "expression"),
    ("{% with ", BASE, "expression"),
    ("{% with 1 as ", "identifier", "identifier"),
    ("{% with 1 as x ", "%}", "end block"),
    ("{% include ", "string", "string"),
    ('{% include "t" ', "'with' %}", "end block"),
    ('{% include "t" with ', BASE, "expression"),
]
EXPRESSIONS = [
    ("{{ a. ", "identifier index", "identifier or index"),
    ("{{ a?. ", "identifier index", "identifier or index"),
    ("{{ . ", "identifier index", "identifier or index"),
    ("{{ ?. ", "identifier index", "identifier or index"),
    ("{{ a.b. ", "identifier index", "identifier or index"),
    ("{{ + ", "number", "number"),
    ("{{ - ", "number", "number"),
    ("{{ ( ", BASE, "expression"),
    ("{{ ((", BASE, "expression"),
    ("{{ f( ", BASE + " )", "expression"),
    ("{{ f(1, ", BASE, "expression"),
    ("{{ [ ", BASE + " ]", "expression"),
    ("{{ [1, ", BASE + " ]", "expression"),
    ("{{ { ", "string }", "string"),
    ('{{ {"k" ', ":", "colon"),
    ('{{ {"k": ', BASE, "expression"),
    ('{{ {"k": 1, ', "string }", "string"),
    ("{{ 1 | ", "identifier", "identifier"),
    ("{{ 1 | f: ", BASE, "expression"),
    ("{{ 1 | f: 1, ", BASE, "expression"),
]
# Where a value is: what is before it, what may follow a whole one, the word, and whether filters may follow.
PLACES = [
    ("{{ ", "}}", "end expression", True),
    ("{% if ", "%}", "end block", True),
    ("{% for x in ", "%}", "end block", True),
    ('{% include "t" with ', "%}", "end block", True),
    ("{% with ", "'as'", "as", True),
    ("{{ (", ")", "close parenthesis", True),
    ("{{ f(", ", )", "close parenthesis", False),
    ("{{ [", ", ]", "close bracket", False),
    ('{{ {"k": ', ", }", "close brace", False),
]
# What is at a point: the tokens and what is written for each; a digit after a name or a dot begins an index.
PROBES = {f"'{word}'": word for word in ("if", "not", "else", "endif", "in", "with", "as", "true")}
PROBES |= {sign: sign for sign in SIGNS} | {"identifier": "b", "digit": "1", "string": '"s"'}
PROBES |= {end: end for end in ("}}", "%}", "#}", "{{", "{%", "{#")} | {"nothing": "", "@": "@", "quote": '"q'}
CLOSING = {"]": "close bracket", "}": "close brace", ")": "close parenthesis"}
ENDS = {"}}": "expression", "%}": "block", "#}": "comment", "{{": "expression", "{%": "block", "{#": "comment"}


def points():
    """All points."""
    listed = TAGS + EXPRESSIONS
    for before, ends, word, filters in PLACES:
        bar = " |" if filters else ""
        listed.append((before + "a ", NAME + " " + ends + bar, word))
        listed.append((before + "a.b ", MEMBER + " " + ends + bar, word))
        listed.append((before + "1 ", ends + bar, word))
        if filters:
            listed.append((before + "1 | f ", ends + " : |", word))
            listed.append((before + "1 | f: a ", NAME + " , " + ends + bar, word))
            listed.append((before + "1 | f: a.b ", MEMBER + " , " + ends + bar, word))
            listed.append((before + "1 | f: 1 ", ", " + ends + bar, word))
    return listed


def brackets(before):
    """The brackets that are open at a point, the innermost last; no string of these texts has one."""
    tag = before[max(before.rfind("{{"), before.rfind("{%")) + 2:]
    found = []
    for letter in tag:
        if letter in "[{(":
            found.append(letter)
        elif letter in "]})":
            found.pop()
    return found


def in_path(before):
    """Whether a digit at a point begins an index."""
    tag = before[max(before.rfind("{{"), before.rfind("{%")) + 2:].split()
    last = [word for word in tag if word not in ("1", "+", "-", "[", "{", "((")][-1:]
    return bool(last) and not (last[0].strip("(").strip("'") in KEYWORDS or last[0][-1] in "(|,:\"[1")


def reason_by_hand(before, may, word, token):
    """The reason that the rules give for a token at a point, none if it may be there."""
    sort = "expression" if before.rfind("{{") > before.rfind("{%") else "block"
    if token in ENDS:
        if token[0] == "{":
            return f"unclosed begin {sort}"
        if ENDS[token] != sort:
            return f"unexpected end {ENDS[token]}"
        if brackets(before):
            opened = brackets(before)[-1]
            return "unclosed open " + {"[": "bracket", "{": "brace", "(": "parenthesis"}[opened]
    if token in CLOSING and {"[": "]", "{": "}", "(": ")"}.get((brackets(before) or [""])[-1]) != token:
        return f"unexpected {CLOSING[token]}"
    if token == "@":
        return "unexpected character"
    if token == "quote":
        return "undelimited string"
    shown = {"digit": "index" if in_path(before) else "number"}.get(token, token)
    if shown in may.split():
        return None
    if token == "nothing":
        return f"expected {at_end(word)}, found EOF"
    if token[0] == "'" and word in ("in", "as"):
        return f"expected keyword `{word}`, found keyword `{token[1:-1]}`"
    if token[0] == "'" and word in ("expression", "keyword"):
        return f"unexpected keyword `{token[1:-1]}`"
    found = {"}}": "end expression", "%}": "end block"} | SIGNS
    named = "keyword" if token[0] == "'" else found.get(shown, shown)
    return f"expected {'keyword' if word in ('in', 'as') else word}, found {named}"


def at_end(word):
    """The word where the text ends."""
    return {"expression": "token", "identifier or index": "token", "in": "keyword", "as": "keyword"}.get(word, word)


def place_by_hand(before, token, text, reason):
    """The span of that fault."""
    at = len(before.encode())
    if reason.startswith("unclosed begin"):
        begin = max(before.rfind("{{"), before.rfind("{%"))
        return [begin, begin + 2]
    if reason.startswith("unclosed open"):
        opened = max(before.rfind(bracket) for bracket in "[{(")
        return [opened, opened + 1]
    return [at, at + len(text)]


def rows():
    """Each point with each token; where that may be, the text ends after it, and the definitions say what is wrong then."""
    listed = []
    for before, may, word in points():
        for token, text in PROBES.items():
            if before.endswith("((") and token == "{{":
                continue
            reason = reason_by_hand(before, may, word, token)
            wanted = None
            if reason is not None:
                error = {"kind": "invalid syntax", "reason": reason, "template": "page"}
                wanted = {"written": "", "error": error | {"span": place_by_hand(before, token, text, reason)}}
            listed.append(row(before + text, wanted=wanted))
    return listed
