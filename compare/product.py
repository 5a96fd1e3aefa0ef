"""Runs ec_text_rows on rows (docs/rows/SHOWN.md)."""

import re
import subprocess

# What would be read in another way in a row: a brace before another, or before what is written as an escape.
UNSAFE = re.compile(r"[^\n -~]|\{(?=\{|[^\n -~])|^=(?=== )", re.M)
HEAD = re.compile(r"^=== (.*)\n", re.M)


def written(text):
    """A text as it is written in a row."""
    return UNSAFE.sub(lambda found: f'{{{{1*"\\{ord(found.group()):02x}"}}}}', text)


def run(program, rows):
    """What the program prints of each row, which is a task, a label and a text."""
    lines = [""]
    for task, label, text in rows:
        lines.append(f"=== {task}: {label}")
        if text:
            lines.append(written(text))
    ended = subprocess.run([program, "texts"], input="\n".join(lines) + "\n", capture_output=True, encoding="utf-8")
    if ended.returncode:
        raise SystemExit(f"compare: {program} ended with {ended.returncode}: {ended.stderr}")
    parts = HEAD.split(ended.stdout)
    heads = [f"{task}: {label}" for task, label, _ in rows]
    if parts[1::2] != heads:
        raise SystemExit("compare: the program prints other rows than it was given")
    return parts[2::2]
