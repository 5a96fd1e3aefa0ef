"""What words of the command line ask for, by README and docs/RUNNING.md alone: a regular expression for each command, over
the words behind the first with a zero byte before each of them."""

import re

NUMBER = rb"([0-9]+)"
# A + at the head of a link is its mark, also where a name would have to begin with it.
LINK = rb"(?:\+|(?![+-]))[^=\0]+=(?:memory|file:[^\0]+)"
TURNS = rb"--turns[\0=][0-9]+"
# A path of a transcript has no - at its head.
REPLAY = rb"--replay[\0=](?!-)[^\0]+"
RUN = re.compile(rb"((?:\0(?:%s|%s|%s)(?=\0|$))*)(?:\0--)?((?:\0%s(?=\0|$))*)" % (TURNS, REPLAY, LINK, LINK), re.S)
GEN = re.compile(rb"(?:\0--)?\0%s((?:\0%s(?=\0|$))*)|\0%s((?:\0%s(?=\0|$))*)\0--((?:\0%s(?=\0|$))*)" % (NUMBER, LINK, NUMBER, LINK, LINK), re.S)
NOTHING = re.compile(rb"(?:\0--)?")
ITEM = re.compile(rb"\0(?:--turns[\0=](?P<turns>[0-9]+)|--replay[\0=](?P<replay>[^\0]+)|(?P<link>[^\0]+))")
PARTS = re.compile(rb"(?P<ready>\+?)(?P<name>[^=]+)=(?:memory|file:(?P<path>.+))", re.S)


def quoted(text):
    """Bytes in quotes, as a row shows them."""
    return '"%s"' % "".join(chr(b) if 32 <= b <= 126 and b not in b'"\\' else f"\\{b:02x}" for b in text)


def link_shown(word):
    it = PARTS.fullmatch(word)
    place = "memory" if it["path"] is None else "file " + quoted(it["path"])
    return f" {'ready' if it['ready'] else 'free'} {quoted(it['name'])} {place}"


def run_asked(command, text):
    it = RUN.fullmatch(text)
    if not it:
        return "none"
    items = list(ITEM.finditer(it[1])) + list(ITEM.finditer(it[2]))
    turns = [int(item["turns"]) for item in items if item["turns"] is not None]
    replays = [item["replay"] for item in items if item["replay"] is not None]
    if len(turns) > 1 or len(replays) > 1 or any(number > 10**9 for number in turns):
        return "none"
    places = (" replay " + quoted(item["replay"]) if item["replay"] else link_shown(item["link"]) for item in items if item["turns"] is None)
    return f"{command} {turns[0] if turns else 1000000}" + "".join(places)


def gen_asked(text):
    it = GEN.fullmatch(text)
    if not it:
        return "none"
    number = int(it[1] or it[3])
    links = (it[2] or b"") + (it[4] or b"") + (it[5] or b"")
    if not 1 <= number < 2**32:
        return "none"
    return f"gen {number}" + "".join(link_shown(word) for word in links.split(b"\0")[1:])


def asked(words):
    """What a list of words, each of bytes, asks for, as a row of the section `words` shows it."""
    if not words:
        return "none"
    command, text = words[0], b"".join(b"\0" + word for word in words[1:])
    if command == b"translate":
        return "translate" if NOTHING.fullmatch(text) else "none"
    if command == b"gen":
        return gen_asked(text)
    if command in (b"run", b"exec", b"record"):
        return run_asked(command.decode(), text)
    return "none"
