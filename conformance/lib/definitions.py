"""Cases of texts that have a tree, as statements that the prover's kernel computes: the tree, and what it means."""
import json

from reference import trees
from reference.callables import OWN, Formatter
from reference.cutting import Cutting
from reference.delimiters import USUAL, delimiters_of
from reference.trees import Reader, significant

CONSTRUCTORS = {
    "raw template": "Raw", "begin expression": "BeginExpr", "end expression": "EndExpr", "begin block": "BeginBlock",
    "end block": "EndBlock",
    "begin comment": "BeginComment", "end comment": "EndComment", "open bracket": "OpenBracket",
    "close bracket": "CloseBracket",
    "open brace": "OpenBrace", "close brace": "CloseBrace", "open parenthesis": "OpenParen", "close parenthesis": "CloseParen",
    "member access operator": "Dot", "optional member access operator": "QuestionDot", "pipe": "Pipe", "comma": "Comma",
    "colon": "Colon",
    "plus": "Plus", "minus": "Minus", "whitespace": "Whitespace", "keyword": "Keyword", "identifier": "Ident", "index": "Index",
    "number": "Number", "string": "String",
}
KINDS = ["BeginExpr", "EndExpr", "BeginExprTrim", "EndExprTrim", "BeginBlock", "EndBlock", "BeginBlockTrim", "EndBlockTrim",
         "BeginComment",
         "EndComment", "BeginCommentTrim", "EndCommentTrim"]


class NotShown(Exception):
    """This case has no form here."""


def text(source):
    """A text, as its bytes."""
    data = source if isinstance(source, bytes) else source.encode()
    if not data:
        return "[]"
    if all(32 <= byte < 127 or byte == 10 for byte in data):
        return "(codes " + json.dumps(data.decode()) + ")"
    return chain([str(byte) for byte in data])


def chain(parts):
    """A list."""
    return "(" + " ∷ ".join([*parts, "[]"]) + ")" if parts else "[]"


def integer(number):
    """An integer."""
    return f"(pos {number})" if number >= 0 else f"(negsuc {-number - 1})"


def at(span):
    """A span."""
    return f"(at {span[0]} {span[1]})"


def word(ident):
    """A name or a text in quotes, and where it is."""
    return f"(word {text(ident.text)} {ident.span[0]} {ident.span[1]})"


def value(given):
    """A value."""
    if given is None:
        return "none_val"
    if isinstance(given, bool):
        return f"(bool_val {str(given).lower()})"
    if isinstance(given, int):
        return f"(int_val {integer(given)})"
    if isinstance(given, str):
        return f"(text_val {text(given)})"
    if isinstance(given, list):
        return f"(list_val {nested('val_then', 'no_vals', [value(one) for one in given])})"
    entries = sorted(given.items(), key=lambda it: it[0].encode())
    return f"(map_val {nested('entry_then', 'no_entries', [f'{text(key)} {value(one)}' for key, one in entries])})"


def nested(more, none, parts):
    """Parts one after the other, as a type of its own has them."""
    return f"({more} {parts[0]} {nested(more, none, parts[1:])})" if parts else none


def access(it):
    """A name or an index of a path."""
    if isinstance(it.access, int):
        return f"(by_index {it.access} {at(it.access_span)})"
    return f"(by_key (word {text(it.access)} {it.access_span[0]} {it.access_span[1]}))"


def member(it):
    """A step of a path."""
    return f"(step {'Optional' if it.optional else 'Direct'} {access(it)} {it.span[0]} {it.span[1]})"


def base(it):
    """An expression without a filter."""
    if isinstance(it, trees.Var):
        return f"(var {member(it.members[0])} {chain([member(one) for one in it.members[1:]])})"
    if isinstance(it, trees.Literal):
        return f"(literal {value(it.value)} {at(it.span)})"
    if isinstance(it, trees.Items):
        return f"(list {bases(it.values)} {at(it.span)})"
    if isinstance(it, trees.Entries):
        items = nested("item_then", "no_items", [f"{word(key)} {base(one)}" for key, one in it.entries])
        return f"(mapping {items} {at(it.span)})"
    if isinstance(it, trees.Paren):
        return f"(paren {expression(it.inner)} {at(it.span)})"
    return f"(call {word(it.name)} {arguments(it)} {at(it.span)})"


def bases(values):
    """Expressions one after the other."""
    return nested("base_then", "no_bases", [base(one) for one in values])


def arguments(it):
    """The arguments of a filter or a call."""
    return f"(arguments {bases(it.arguments)} {at(it.arguments_span)})" if it.arguments else "no_arguments"


def expression(it):
    """An expression, with its filters."""
    if isinstance(it, trees.Call) and it.receiver is not None:
        return f"(filtered {expression(it.receiver)} {word(it.name)} {arguments(it)} {at(it.span)})"
    return f"(base {base(it)})"


def statement(it):
    """A statement."""
    if isinstance(it, trees.Raw):
        return f"(raw {at(it.span)})"
    if isinstance(it, trees.Inline):
        return f"(inline_expr {expression(it.expression)} {at(it.span)})"
    if isinstance(it, trees.Include):
        return f"(include {word(it.name)} {'None' if it.context is None else f'(Some {expression(it.context)})'})"
    if isinstance(it, trees.With):
        return f"(with {expression(it.expression)} {word(it.name)} {statements(it.body)})"
    other = "no_else" if it.other is None else f"(otherwise {statements(it.other)})"
    if isinstance(it, trees.If):
        return f"(if_else {str(it.negated).lower()} {expression(it.condition)} {statements(it.body)} {other})"
    return f"(for_loop {loop_names(it)} {expression(it.iterable)} {statements(it.body)} {other})"


def loop_names(it):
    """The names of a loop."""
    if len(it.names) == 1:
        return f"(item {word(it.names[0])})"
    return f"(key_value {word(it.names[0])} {word(it.names[1])} {at(it.names_span)})"


def statements(tree):
    """Statements one after the other."""
    return nested("statement_then", "no_statements", [statement(one) for one in tree])


def lexemes(cut):
    """The tokens of a cut."""
    return chain([f"{'trimming' if it.hyphen else 'lex'} {CONSTRUCTORS[it.token]} {it.span[0]} {it.span[1]}" for it in cut])


def delimiters(pairs):
    """The delimiters of a syntax."""
    if pairs == USUAL:
        return "default_delimiters"
    listed = []
    for it in delimiters_of(pairs):
        kind = KINDS[4 * ["expression", "block", "comment"].index(it.sort) + (0 if it.begins else 1) + (2 if it.hyphen else 0)]
        listed.append(f"record {{ kind = delimiter.{kind}; text = {text(it.text)} }}")
    return chain(listed)



def template_rows(label, source, pairs):
    """That a text has its tree, and the template that it is."""
    cut = Cutting(source, delimiters_of(pairs)).run()
    tree = statements(Reader(source, significant(source, cut)).statements())
    proof = (f"{label}_tree : HasTree {delimiters(pairs)} {text(source)} {tree}\nunfolding language\n"
             f"{label}_tree = has_tree_tested _ _ {lexemes(cut)} _ refl\n")
    return proof, f"(record {{ source = {text(source)}; tree = {tree} }})"


def callables(case):
    """The callables of a case, and its default formatter."""
    kinds = {name: "formatter" if isinstance(called, Formatter) else "function" for name, called in OWN.items()}
    listed = chain([f"({text(name)}, {kinds[name]} {name})" for name in case.get("callables", [])])
    return f"{listed} {'(Some ' + case['default_formatter'] + ')' if 'default_formatter' in case else 'None'}"


def rendered(label, case):
    """That each template of a case has its tree, and that the trees mean its answer: the text, the span and the picture."""
    if any(part in case for part in ("standard", "escape", "writer")):
        raise NotShown
    pairs = case.get("syntax", USUAL)
    proof, whole = template_rows(label, case["source"].encode(), pairs)
    held = [f"({text(case['name'])}, {whole})"] if "name" in case else []
    for number, (name, source) in enumerate(sorted(case.get("templates", {}).items())):
        more, template = template_rows(f"{label}_{number}", source.encode(), pairs)
        proof += more
        held.append(f"({text(name)}, {template})")
    wanted, name = case["answer"], f"(Some {text(case['name'])})" if "name" in case else "None"
    fault = "None"
    if "error" in wanted:
        span = f"(Some {at(wanted['error']['span'])})" if wanted["error"]["span"] else "None"
        fault = f"(Some ({span}, {text(wanted['error']['picture'])}))"
    written = text(wanted["text"] if "text" in wanted else wanted["written"])
    engine = f"(engine {chain(held)} {callables(case)} {case.get('depth', 64)})"
    given = f"{engine} {whole} {name} {value(case.get('context', {}))}"
    proof += (f"{label} : answer_of {given} ≡ ({written}, {fault})\n"
              f"unfolding meaning columns\n{label} = refl\n")
    return proof
