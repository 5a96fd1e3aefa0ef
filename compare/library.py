"""Which argument lists the calls of the library take in written C, by the rules of `docs/CALLS.md`.

A list is a list of pairs: the expression, and its type as a value, None where a part of it has a fault. `takes` says whether
the call of this name takes it.
"""

import re

MOST = 2**24
CHARACTERS = (("number", "char"), ("number", "uchar"))
ELEMENT = {
    "short": 2, "unsigned_short": 2, "int": 4, "unsigned_int": 4, "long": 8, "unsigned_long": 8, "long_long": 8,
    "unsigned_long_long": 8, "bool": 1,
}
TEXTS = ("char", "unsigned_char")
SYMBOLS = {"ECPGt_" + kind for kind in (*ELEMENT, *TEXTS, "varchar", "const", "descriptor", "NO_INDICATOR", "EOIT", "EORT")}
SYMBOLS |= {"ECPGst_" + kind for kind in ("normal", "execute", "exec_immediate", "open")}
ITEMS = {"ECPGd_" + kind for kind in ("data", "indicator", "name", "type", "ret_octet")}
SYMBOLS |= ITEMS | {"ECPGd_EODT"}
SET_ITEMS = ITEMS - {"ECPGd_name", "ECPGd_ret_octet"}
# The arguments behind the line: n is a text that may be NULL, t one that may not, l a literal, w `"on"` or `"off"`.
SHAPES = {
    "ECPGconnect": "tnnn", "ECPGdisconnect": "t", "ECPGsetconn": "t", "ECPGsetcommit": "wn", "ECPGtrans": "nl",
    "ECPGprepare": "nlt", "ECPGdeallocate": "nl", "ECPGallocate_desc": "t", "ECPGdeallocate_desc": "t",
}
WITH_VALUES = {"ECPGdo", "ECPGget_desc_header", "ECPGset_desc_header", "ECPGget_desc", "ECPGset_desc"}
CALLS = {*SHAPES, *WITH_VALUES}
STATEMENTS = {"ECPGst_normal": "l", "ECPGst_execute": "l", "ECPGst_exec_immediate": "t", "ECPGst_open": "ll"}


def is_symbol(e):
    return e[0] == "name" and e[1] in SYMBOLS


def spelled(pair):
    """An argument as one letter, or a word: what it is as far as its form and its type tell."""
    e, t = pair
    if is_symbol(e):
        return f"<{e[1]}>"
    if e == ("name", "NULL"):
        return "N"
    if e[0] == "str":
        return "W" if e[1] in (b"on", b"off") else "L"
    if e[0] == "int":
        return {"int": "I", "long": f"({e[1]})"}.get(e[2], "?")
    if t is None:
        return "F"
    if t[0] == "pointer":
        return "C" if t[1] in CHARACTERS else "P"
    return "?"


TEXT = "[LWCF]"
LITERAL = "[LW]"
KINDS = {"t": TEXT, "n": "[NLWCF]", "l": LITERAL, "w": "W"}
NUMBER = r"\((\d+)\)"
NO_INDICATOR = r"<ECPGt_NO_INDICATOR>N\(0\)\(0\)\(0\)"
INDICATOR = rf"<ECPGt_(short|int|long|long_long)>[CPF]\(0\){NUMBER}{NUMBER}"
CONSTANT = rf"<ECPGt_const>{LITERAL}\(0\)\(1\)\(0\){NO_INDICATOR}"
AREA = rf"<ECPGt_descriptor>{TEXT}\(1\)\(1\)\(1\){NO_INDICATOR}"
HOST = re.compile(rf"<ECPGt_({'|'.join([*ELEMENT, *TEXTS, 'varchar'])})>[CPF]{NUMBER}{NUMBER}{NUMBER}(?:{NO_INDICATOR}|{INDICATOR})")
VALUE = rf"(?:{HOST.pattern})"


def unnamed(pattern):
    return re.sub(r"(?<!\\)\((?!\?)", "(?:", pattern)


ONE = unnamed(f"(?:{HOST.pattern}|{CONSTANT}|{AREA})")


def element(kind, length):
    """The size of one element, or None where the length is none of this kind."""
    if kind in TEXTS:
        return length or 8
    if kind == "varchar":
        return -(-(4 + length) // 4) * 4 if length >= 1 else None
    return ELEMENT[kind] if length == 0 else None


def is_host(text, single):
    found = HOST.fullmatch(text)
    if not found:
        return False
    kind, indicator = found[1], found[5]
    length, count, distance = (int(found[n]) for n in (2, 3, 4))
    size = element(kind, length)
    if size is None or not size <= distance <= MOST or not 1 <= count <= MOST or length > MOST or (single and count != 1):
        return False
    if indicator is None:
        return True
    others, apart = int(found[6]), int(found[7])
    return count <= others <= MOST and ELEMENT[indicator] <= apart <= MOST


def is_value(text, single, constants):
    return is_host(text, single) or (constants and re.fullmatch(CONSTANT, text) is not None)


def is_area(text):
    return re.fullmatch(AREA, text) is not None


def are_inputs(texts):
    if texts and is_area(texts[-1]):
        texts = texts[:-1]
    return all(is_value(text, True, True) for text in texts)


def are_outputs(texts):
    return (len(texts) == 1 and is_area(texts[0])) or all(is_value(text, False, False) for text in texts)


def runs(text):
    head = "|".join(f"<{name}>" + "".join(KINDS[k] for k in shape) for name, shape in STATEMENTS.items())
    found = re.fullmatch(rf"[NLWCF](?:{head})((?:{ONE})*)<ECPGt_EOIT>((?:{ONE})*)<ECPGt_EORT>", text)
    return found is not None and are_inputs(re.findall(ONE, found[1])) and are_outputs(re.findall(ONE, found[2]))


def counts(text, stores):
    found = re.fullmatch(rf"{TEXT}({ONE})", text)
    return found is not None and is_value(found[1], True, not stores)


def describes(text, items, stores):
    one = rf"(<[^>]*>)({ONE})"
    found = re.fullmatch(rf"{TEXT}({ONE})((?:{unnamed(one)})*)<ECPGd_EODT>", text)
    if found is None or not is_value(found[1], True, True):
        return False
    return all(item[1:-1] in items and is_value(value, True, not stores) for item, value in re.findall(one, found[2]))


def takes(name, arguments):
    text = "".join(map(spelled, arguments))
    if not text.startswith("I"):
        return False
    text = text[1:]
    if name in SHAPES:
        return re.fullmatch("".join(KINDS[k] for k in SHAPES[name]), text) is not None
    if name == "ECPGdo":
        return runs(text)
    stores = name.startswith("ECPGget")
    if name.endswith("header"):
        return counts(text, stores)
    return describes(text, ITEMS if stores else SET_ITEMS, stores)
