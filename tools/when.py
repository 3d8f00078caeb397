#!/usr/bin/env python3
"""Calls this repository's choice by a test `when t then a else b`: the library has an `if◌then◌else◌` of its own, and a contract may use that name for nothing else.

usage: tools/when.py      at the top of the repository, after tools/spell.py; a second run changes nothing
"""

import glob
import os
import re

TOKEN = re.compile(r"(?<![\w'◌.-])if(?![\w'◌-])")
NAME = "if◌then◌else◌"


def code_and_comment(line, mark):
    at = re.search(r"(?:^|\s)" + mark, line)
    cut = at.start() if at else len(line)
    return line[:cut], line[cut:]


def turned(text):
    return TOKEN.sub("when", text.replace(NAME, "when◌then◌else◌"))


def definitions(text):
    """An .antt file: all code."""
    out = []
    for line in text.split("\n"):
        code, comment = code_and_comment(line, "--")
        out.append(turned(code) + comment.replace(f"`{NAME}`", "`when◌then◌else◌`"))
    return "\n".join(out)


def contracts(text):
    """A source file: imports of ghost names, and what stands between a signature and its body."""
    text = re.sub(r"^(\s*ghost use .*)$", lambda m: m[1].replace(NAME, "when◌then◌else◌"), text, flags=re.M)
    lines, inside = text.split("\n"), False
    for i, line in enumerate(lines):
        code, comment = code_and_comment(line, "//")
        if re.match(r"\s*(requires|ensures)\b", code):
            inside = True
        elif re.fullmatch(r"\s*\{\}?\s*", code) or code.rstrip().endswith(";") and not code.strip().startswith("ghost"):
            inside = False
        if inside or re.match(r"\s*ghost (?!use)", code):
            lines[i] = turned(code) + comment
    return "\n".join(lines)


def write(path, turn):
    with open(path, encoding="utf-8") as file:
        old = file.read()
    new = turn(old)
    if new != old:
        with open(path, "w", encoding="utf-8") as file:
            file.write(new)


def edit(path):
    """An edit's texts, where they are of definitions or of a contract."""
    crate = os.path.dirname(os.path.dirname(path))
    with open(path, encoding="utf-8") as file:
        lines = file.read().split("\n")
    of = ""
    for i, line in enumerate(lines):
        if line.startswith("file: "):
            of = line[6:].strip()
        elif line.startswith(("old: ", "new: ")):
            with open(os.path.join(crate, of), encoding="utf-8") as file:
                source = file.read()
            here = of.endswith(".antt") or line.startswith("old: ") and line[5:] not in source and turned(line[5:]) in source
            if here:
                lines[i] = line[:5] + turned(line[5:])
    return "\n".join(lines)


for path in sorted(glob.glob("crates/*/specs/**/*.antt", recursive=True) + glob.glob("crates/*/proofs/**/*.antt", recursive=True)):
    write(path, definitions)
for path in sorted(glob.glob("crates/*/src/**/*.rt", recursive=True)):
    write(path, contracts)
for path in sorted(glob.glob("crates/*/must-fail/*.edit")):
    write(path, lambda text: edit(path))
