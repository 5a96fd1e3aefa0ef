"""What both readers share: stops, lines, and the printed form (docs/rows/SHOWN.md)."""

FAULTS = {
    1: "F1 unclosed comment",
    2: "F2 unclosed quote",
    3: "F3 unclosed statement",
    4: "F4 bad byte",
    5: "F5 bad number",
    6: "F6 bad escape",
    7: "F7 syntax",
    9: "F9 left-out form",
}


class Stop(Exception):
    """Why a text is refused, as it is printed."""


def fault(number, line):
    return Stop(f"{FAULTS[number]} at line {line}\n")


def quoted(text):
    """A text whose characters stand for bytes, in quotes."""
    return '"' + "".join(c if " " <= c <= "~" and c not in '"\\' else f"\\{ord(c):02x}" for c in text) + '"'
