"""What is to be printed of a text, by the two readers of this folder."""

from limits import passes_limit
from pieces import pieces
from rules import Stop, fault, quoted
from tokens import shown, tokens
from trees import tree

MODES = ["pieces", "tokens", "tokens written", "syntax", "syntax written"]


def printed_pieces(found):
    return "".join(f"{piece.line} {piece.kind} {quoted(piece.text)}\n" for piece in found)


def printed_tokens(found):
    lines = []
    for place, token in enumerate(found):
        lines.append(f"{token.line} {place} {shown(token)}\n")
        for line, gap, kind, text in token.statement or []:
            lines.append(f"  {line} {'gap' if gap else '-'} {kind} {quoted(text)}\n")
    return "".join(lines)


def printed_tree(grammar, found):
    derivation, dead = grammar.derive(found)
    if passes_limit(derivation):
        raise Stop("limit L3\n")
    if dead is not None:
        raise fault(7, found[dead].line)
    return tree(grammar, found, derivation)


def printed(grammar, mode, text):
    """What the mode prints of a text whose characters stand for bytes."""
    try:
        found = pieces(text)
        if mode == "pieces":
            return printed_pieces(found)
        found = tokens(found, mode.endswith("written"))
        if mode.startswith("tokens"):
            return printed_tokens(found)
        return printed_tree(grammar, found)
    except Stop as stop:
        return stop.args[0]
