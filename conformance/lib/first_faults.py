"""Cases of texts that have no tree, as statements that the prover's kernel computes: the first fault, and its picture."""
from definitions import CONSTRUCTORS, NotShown, at, chain, lexemes, rendered, text
from reference.cutting import Cutting, Refused
from reference.delimiters import USUAL, best, delimiters_of

# The words of a wanted token, as the definitions name it.
WANTED = {
    "expression": "an_expression", "string": "a_string", "identifier or index": "a_name_or_index",
    "end expression": "an_end_expression",
    "end block": "an_end_block", "close parenthesis": "a_close_paren", "close bracket": "a_close_bracket",
    "close brace": "a_close_brace",
    "in": "an_in", "as": "an_as", "keyword": "a_block_word", "identifier": "a_name", "number": "a_number", "colon": "a_colon",
}
# What begins the arguments of most lemmas.
KNOWN = "default_delimiters s default_texts"
# How many tokens before a fault the kernel's steps suffice for.
MOST = 20
# How a fault is known by the begin of its reason, and what the definitions call it.
CUT_FAULTS = {"unclosed begin": "unclosed_tag", "unexpected end ": "unexpected_end", "unclosed open": "unclosed_bracket",
              "unexpected close": "unexpected_close", "unexpected character": "unexpected_character"}
EMPTY, OPEN = "expected raw template, found end comment", "expected raw template, found EOF"


def record(fields):
    """A record; each has the tokens before the point, and the equations that its span and its reason are these."""
    fields = {"lexemes": "ls", "reads": "w.reads", "at": "refl", "words": "refl"} | fields
    return "(record { " + "; ".join(f"{key} = {part}" for key, part in fields.items()) + " })"


class Fault:
    """The first fault of a text, and what is before it."""

    def __init__(self, case):
        if "syntax" in case:
            raise NotShown
        self.source = case["source"].encode()
        self.cutting = Cutting(self.source, delimiters_of(USUAL))
        try:
            self.cutting.run()
        except Refused as refused:
            self.reason, self.span = refused.reason, refused.span
        self.point = self.cutting.lexemes[-1].span[1] if self.cutting.lexemes else 0
        self.tag = self.cutting.tag
        self.reported = f"{at(self.span)} {text(self.reason)}"
        self.refuse_unshown()

    def refuse_unshown(self):
        """The kernel's test of what is before a fault takes no strings, indexes, closing tags and no text in comments."""
        words = [self.source[it.span[0]:it.span[1]] for it in self.cutting.lexemes if it.token == "keyword"]
        tokens = [it.token for it in self.cutting.lexemes]
        closing = [word for word in words if word.startswith((b"else", b"end"))]
        if {"string", "index"} & set(tokens) or "begin comment" in tokens[:-1] or closing or len(tokens) > MOST:
            raise NotShown

    def proof(self):
        """The proof that the fault holds and is the first."""
        for begin, name in CUT_FAULTS.items():
            if self.reason.startswith(begin):
                return self.cut(name)
        if self.reason in (EMPTY, OPEN):
            return self.comment()
        if self.reason.startswith("unclosed `"):
            return self.unclosed()
        if self.tag is None or not self.reason.startswith(("expected", "unexpected keyword")):
            raise NotShown
        return self.end() if self.reason.endswith("EOF") else self.token()

    def mode(self):
        """The mode in which the point lies."""
        if self.tag is not None:
            return f"(in_tag {self.sort()} {self.in_path()})"
        return "in_comment" if self.cutting.lexemes and self.cutting.lexemes[-1].token == "begin comment" else "outside"

    def sort(self):
        """The sort of the open tag."""
        return self.tag.begin.delimiter.sort

    def in_path(self):
        """Whether a path has begun in it."""
        return str(self.tag.in_path).lower()

    def found(self):
        """The delimiter at the point: its sort, whether it has the hyphen, and where it ends."""
        it = best(self.cutting.delimiters, self.source, self.point)
        return it.delimiter.sort, str(it.delimiter.hyphen).lower(), it.span[1]

    def delimiter(self, test):
        """The parts of a record that say which delimiter is at the point, by a test of a begin or an end."""
        sort, hyphen, to = self.found()
        tested = f"{test}_tested default_delimiters s {sort} {hyphen} {self.point} {to} refl"
        return sort, {"hyphen": hyphen, "to": to, test: tested}

    # ---- faults that end the cutting

    def cut(self, name):
        """One of them, by its name."""
        parts = getattr(self, name)()
        told = f"{name} {self.reported} w.reads w.before refl"
        return f"cut_fault_is_first {KNOWN} ls {self.mode()} {self.point} {told} {record(parts)}"

    def unexpected_end(self):
        """An end that may not be there."""
        sort, parts = self.delimiter("ends")
        return parts | {"mode": self.mode(), "sort": sort, "unexpected": "λ e. cc e"}

    def unclosed_tag(self):
        """A begin in a tag or a comment."""
        opening, parts = self.delimiter("begins")
        return parts | {"mode": self.mode(), "sort": self.sort() if self.tag else "comment", "awaits": "refl", "opening": opening}

    def unclosed_bracket(self):
        """The tag's end with a bracket open."""
        brackets = [f"lex {CONSTRUCTORS[token]} {span[0]} {span[1]}" for token, span in reversed(self.tag.brackets)]
        parts = self.delimiter("ends")[1] | {"sort": self.sort(), "in_path": self.in_path()}
        return parts | {"bracket": brackets[0], "others": chain(brackets[1:]), "brackets": "refl"}

    def unexpected_close(self):
        """A closing bracket that fits none."""
        token, to = CONSTRUCTORS[self.reason.removeprefix("unexpected ")], self.point + 1
        tested = f"inner_tested default_delimiters s {self.in_path()} {token} {self.point} {to} refl"
        return {"sort": self.sort(), "in_path": self.in_path(), "t": token, "to": to, "occurs": tested, "close": "refl",
                "unmatched": "refl"}

    def unexpected_character(self):
        """A character of ASCII that begins no token."""
        letter = self.source[self.point:self.span[1]]
        if letter.startswith(b"?") or len(letter) > 1:
            raise NotShown
        return {"sort": self.sort(), "in_path": self.in_path(), "bare": f"none_tested default_delimiters s {self.point} refl",
                "c": letter[0], "to": self.span[1], "occurs": f"occurs_tested s {self.point} {text(letter)} refl",
                "nothing": "inl (refl, refl)"}

    # ---- other faults

    def unclosed(self):
        """A block that is open at the end."""
        block = self.cutting.blocks[0]
        opening = f"record {{ kind = {block.word}_block; has_else = false; span = {at(block.span)} }}"
        parts = {"eof": "refl", "opening": opening, "outer": "refl"}
        return f"unclosed_is_first {KNOWN} ls outside {self.point} w refl refl {self.reported} {record(parts)}"

    def comment(self):
        """A comment that is empty, or that has just begun where the text ends."""
        if self.reason == OPEN:
            parts = record({"eof": "refl"})
            return f"comment_eof_is_first {KNOWN} ls in_comment {self.point} w refl refl {self.reported} {parts}"
        parts = self.delimiter("ends")[1] | {"opening": "refl"}
        return f"empty_is_first {KNOWN} ls in_comment {self.point} w refl {self.reported} {record(parts)}"

    def wants(self):
        """What is wanted at the point."""
        wanted = WANTED[self.tag.row.wanted()[0]]
        return {"sort": self.sort(), "in_path": self.in_path(), "wanted": wanted,
                "wants": f"wants (tag_row s ls) _ {wanted} (symbols_plain s (tag_tokens ls)) (stands_tested s ls _ refl) refl"}

    def end(self):
        """The text ends in a tag."""
        return f"end_is_first {KNOWN} {self.point} {self.reported} refl w.before {record(self.wants() | {'eof': 'refl'})}"

    def token(self):
        """A token that may not be where it is."""
        begin, to = self.span
        found = best(self.cutting.delimiters, self.source, begin)
        word = "keyword" if "keyword" in self.reason.split(", found ")[-1] else self.reason.split(", found ")[-1]
        if word in ("string", "index"):
            raise NotShown
        token = f"{CONSTRUCTORS[word]} {str(bool(found) and found.delimiter.hyphen).lower()}"
        stuck = f"may_not_follow (tag_row s ls) _ (symbol_of s (lexeme_at {token} {begin} {to})) (stands_tested s ls _ refl) refl"
        name, hyphen = token.split()
        parts = self.wants() | {"t": name, "hyphen": hyphen, "to": to, "occurs": "step", "counts": "refl", "stuck": stuck}
        fits = "refl" if name.startswith(("End", "Close")) else "tt"
        clear = f"(clear_to {KNOWN} ls {self.mode()} {begin} w {token} {to} step {fits})"
        return (f"let step = step_tested default_delimiters s {self.mode()} {token} {begin} {to} refl in\n    "
                f"first_stuck {KNOWN} {begin} {to} {self.reported} (omega arith) w.before {clear} {record(parts)}")


def refused(label, case):
    """That a text's first fault is the one of its answer, and that the picture is that of this fault."""
    fault, error = Fault(case), case["answer"]["error"]
    name = f"(Some {text(case['name'])})" if "name" in case else "None"
    source, reported = text(fault.source), f"{at(error['span'])} {text(error['reason'])}"
    return (f"{label} : IsFirstFault default_delimiters {source} {reported}\nunfolding language digits\n"
            f"{label} =\n    let s = {source} in\n    let ls : List Lexeme = {lexemes(fault.cutting.lexemes)} in\n"
            f"    let w = walked s ls {fault.point} refl in\n    {fault.proof()}\n\n"
            f"{label}_shown : shown {name} {source} {reported} ≡ {text(error['picture'])}\n"
            f"unfolding columns\n{label}_shown = refl\n")


def statements_of(case):
    """The statements of a case; none if it has no form here."""
    label = case["id"].replace("-", "_")
    try:
        is_refused = case["answer"].get("error", {}).get("kind") == "invalid syntax"
        return refused(label, case) if is_refused else rendered(label, case)
    except NotShown:
        return None
