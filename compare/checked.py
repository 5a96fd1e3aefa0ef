"""Asks ec_text_rows what the checks say of texts (docs/rows/SHOWN.md), and what rows over the definitions need."""

import re
import subprocess
from pathlib import Path

TOP = Path(__file__).resolve().parent.parent


def built():
    """Proves and builds the program."""
    folder = TOP / "crates" / "ec_text_rows"
    subprocess.run(["rt", "run", "--", "checks"], cwd=folder, input=b"", check=True, stdout=subprocess.DEVNULL)
    return folder / "out" / "ec_text_rows"


def by_program(program, texts, written=None):
    """What the program prints of each text: `fine`, a fault with its line, or a limit. `written` tells which are written C."""
    labels = [f"written {n}" if written and written[n] else str(n) for n in range(len(texts))]
    rows = "".join(f"=== {label}\n{text}\n" for label, text in zip(labels, texts))
    ended = subprocess.run([program, "checks"], input=rows, capture_output=True, encoding="utf-8")
    parts = re.split(r"^=== (.*)\n", ended.stdout, flags=re.M)
    if ended.returncode or parts[1::2] != labels:
        raise SystemExit(f"compare: {program} ended with {ended.returncode}: {ended.stderr}")
    return [re.sub(r"^(F\d+) .* line (\d+)$|^limit (L\d+)$", lambda m: m[3] or f"{m[1]} {m[2]}", found.strip()) for found in parts[2::2]]


def rules():
    """The rules of ec_typing_defs that have to be unfolded, by their modules."""
    found = {}
    for file in sorted((TOP / "crates/ec_typing_defs/specs").glob("*.antt")):
        names = re.findall(r"^unfoldable pub (\S+) :", file.read_text(), re.M)
        if names:
            found[file.stem] = names
    return found


def quoted(text):
    """A text in quotes, as a clause has it."""
    return text.replace("\\", "\\\\").replace('"', '\\"').replace("\n", "\\n")
