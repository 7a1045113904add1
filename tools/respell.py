#!/usr/bin/env python3
"""Brings the repository's own definitions, lemmas and edits to the spelling of today's Rattle, after the kit's port.py has run.

usage: tools/respell.py        at the top of a checkout in which port.py has run; once

What port.py leaves in camel case is written in snake case (`siteOf` is `site_of`), in crates/, in must-fail/ and in the pages.
Two definitions would have the name of a field that stands beside them, and get another; two lemmas would have a definition's, and get
back the dash that they had.
"""
import glob
import re

# What would fall together with something else if it were spelt by the rule.
OTHERWISE = {"pageSize": "page_size_of", "contentStart": "content_start_of"}
DASHED = {"crates/agreement/proofs/Each.antt": {"old_value": "old-value"}, "crates/agreement/proofs/Agrees.antt": {"old_row": "old-row"}}

NAME = re.compile(r"(?<![\w'.·])[a-z][a-z0-9]*(?:[A-Z][a-z0-9]*)+(?![\w'])")
PATH = re.compile(r"(?<=\.)[a-z][a-z0-9]*(?:[A-Z][a-z0-9]*)+(?![\w'])")
TOKEN = r"(?<![\w'.-])%s(?![\w'-])"

# A field of a name is written tight, and is one argument with it; a hole of an operator is a dotted circle; a prime an apostrophe.
FIELD = re.compile(r"(?<=[\w')]) \.(?=[\w«])")
ARGUMENT = re.compile(r"\(([\w']+(?: \.[\w«»]+)+)\)")
HOLE = re.compile(r"(?<![\w])_(?=[^\w\s,}])|(?<=[^\w\s,{])_(?![\w])")


def snake(match):
    word = match.group(0)
    return OTHERWISE.get(word) or re.sub(r"(?<=[a-z0-9])([A-Z])", lambda m: "_" + m.group(1).lower(), word)


def below(*patterns):
    return sorted(f for p in patterns for f in glob.glob(p, recursive=True) if "/out/" not in f)


def turned(path, text):
    for old, new in DASHED.get(path, {}).items():
        text = re.sub(TOKEN % old, new, text)
    return PATH.sub(snake, NAME.sub(snake, text))


def fitted(text):
    """An edit of a definition, as port.py writes the definition."""
    lines = text.split("\n")
    about = ""
    for i, line in enumerate(lines):
        if line.startswith("file: "):
            about = line
        elif line.startswith(("old: ", "new: ")) and about.startswith("file: specs/"):
            line = FIELD.sub(".", ARGUMENT.sub(lambda m: m.group(1).replace(" ", ""), line))
            lines[i] = HOLE.sub("◌", line).replace("′", "'").replace("«", "").replace("»", "")
    return "\n".join(lines)


def write(path, text, was):
    if text != was:
        with open(path, "w", encoding="utf-8") as f:
            f.write(text)


def main():
    names = set()
    for path in below("crates/*/specs/**/*.antt", "crates/*/proofs/**/*.antt", "crates/*/src/**/*.rt", "crates/*/must-fail/*.edit"):
        with open(path, encoding="utf-8") as f:
            was = f.read()
        text = turned(path, was)
        if path.endswith(".edit"):
            text = fitted(text)
        names.update(re.findall(r"[a-z][a-z0-9]*(?:_[a-z0-9]+)+", text))
        write(path, text, was)
    # A page names definitions as it names functions: only what is spelt so in crates/ is turned.
    for path in below("README.md", "docs/**/*.md", "oracle/*.md"):
        with open(path, encoding="utf-8") as f:
            was = f.read()
        write(path, NAME.sub(lambda m: snake(m) if snake(m) in names else m.group(0), was), was)


if __name__ == "__main__":
    main()
