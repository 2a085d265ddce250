#!/usr/bin/env python3
"""Respells this repository's own definitions and lemmas in snake case, `a-b` to `a_b`: those of tools/snake_names.txt.

usage: python3 tools/snake_names.py [ROOT]

It changes code of .antt and .rt files below crates/, the old and new lines of must-fail edits, and what stands in
backquotes in comments and in the Markdown documents. Strings, and names that are not in the list, stay as they are. A
few names are the library's too: they are turned only as fields (FIELDS), or in one file or folder (SHARED). It is run
once, right after port.py."""
import glob
import os
import re
import sys

HERE = os.path.dirname(os.path.abspath(__file__))
ROOT = sys.argv[1] if len(sys.argv) > 1 else os.path.join(HERE, "..")
with open(os.path.join(HERE, "snake_names.txt"), encoding="utf-8") as f:
    NAMES = set(f.read().split("\n")) - {""}
FIELDS = r"(add-zero|mul-one)"
SHARED = {"report_theorems/proofs/Opposite": "add-one", "binary_field/proofs/Checking": "and-true", "class_group/proofs/Uniqueness": "unit-eq"}
TOKEN = re.compile(r"[^\s(){}.,;@\"`:\[\]|!?&*]+")
CODE = re.compile(r'"(?:[^"\\]|\\.)*"')
QUOTED = re.compile(r"`[^`\n]+`")


def snake(name):
    return re.sub(r"(?<=[^◌-])-(?=[^◌>-])", "_", name)


def tokens(text):
    return TOKEN.sub(lambda m: snake(m.group()) if m.group() in NAMES else m.group(), text)


def quoted(text):
    return QUOTED.sub(lambda m: tokens(m.group()), text)


def code(text):
    """The line's code without what stands in strings."""
    parts, end = [], 0
    for m in CODE.finditer(text):
        parts += [tokens(text[end : m.start()]), m.group()]
        end = m.end()
    return "".join(parts) + tokens(text[end:])


def shared(text, path):
    """A line of antt in which fields, and names that one file or folder declares, are names of the library too."""
    if re.match(r"\s*(unfoldable |pub )*use ", text) and not re.match(r"\s*use Identities\.", text):
        return text
    text = re.sub(rf"(?<=[\w)\]])\.{FIELDS}(?![\w-])", lambda m: "." + snake(m[1]), text)
    text = re.sub(rf"^(\s+(?:pub )?){FIELDS}(?= [:=] )", lambda m: m[1] + snake(m[2]), text)
    for place, name in SHARED.items():
        if place in path:
            text = re.sub(rf"(?<![\w.-]){name}(?![\w-])", snake(name), text)
    return text


def line(text, comment):
    m = re.search(comment, text)
    at = m.start() if m else len(text)
    return code(text[:at]) + quoted(text[at:])


def turn(path, one):
    with open(path, encoding="utf-8", newline="") as f:
        old = f.read()
    new = "\n".join(one(l) for l in old.split("\n"))
    if new != old:
        with open(path, "w", encoding="utf-8", newline="") as f:
            f.write(new)


def files(pattern):
    return sorted(p for p in glob.glob(os.path.join(ROOT, pattern), recursive=True) if "/out/" not in p)


for path in files("crates/*/specs/**/*.antt") + files("crates/*/proofs/**/*.antt"):
    turn(path, lambda l: shared(line(l, r"(^|(?<=\s))--(?=\s|-*$)"), path))
for path in files("crates/*/src/**/*.rt"):
    turn(path, lambda l: line(l, r"(^|(?<=\s))//"))
for path in files("crates/*/must-fail/*.edit"):
    turn(path, lambda l: code(l) if re.match(r"(old|new):", l) else l)
for path in files("*.md") + files("docs/**/*.md") + files("tests/**/*.md") + files("examples/*.md"):
    turn(path, quoted)
