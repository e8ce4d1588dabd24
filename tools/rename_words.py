#!/usr/bin/env python3
"""Brings the repository's own words to today's spelling, after port.py has turned the rest.

usage: python3 tools/rename_words.py [ROOT]    once, in a tree that port.py has turned and that nothing was renamed in since

words.tsv, beside this file, has a line for each word: the old spelling, a tab, the new one. Definitions and fields are in snake case; in a lemma's
name a dash is left between two names, and a plain word is joined by `_`; a lemma that would have its definition's name ends in `_lem`.
It turns specs/, proofs/, the clauses and comments of src/, and names between backticks in the pages; no string, no code of src/, no file's name.
In comments and pages a word with a dash is turned only between backticks, since `write-once` is English too.
"""

import os
import re
import sys

HERE = os.path.dirname(os.path.realpath(__file__))
TOKEN = re.compile(r"[A-Za-z_][\w'-]*")
BACKTICKS = re.compile(r"`[^`\n]*`")


def words():
    with open(os.path.join(HERE, "words.tsv"), encoding="utf-8") as f:
        return dict(line.rstrip("\n").split("\t") for line in f)


def turn(text, table):
    return TOKEN.sub(lambda m: table.get(m[0], m[0]), text)


def turn_comment(text, table, plain):
    parts, at = [], 0
    for m in BACKTICKS.finditer(text):
        parts += [turn(text[at : m.start()], plain), turn(m[0], table)]
        at = m.end()
    return "".join(parts) + turn(text[at:], plain)


def turn_code(text, table, plain, mark):
    lines = []
    for line in text.split("\n"):
        at = line.find(mark)
        code, comment = (line, "") if at < 0 else (line[:at], line[at:])
        lines.append(turn(code, table) + turn_comment(comment, table, plain))
    return "\n".join(lines)


def turn_page(text, table):
    return BACKTICKS.sub(lambda m: turn(m[0], table), text)


def files(root):
    for folder, dirs, names in os.walk(root):
        dirs[:] = sorted(d for d in dirs if d not in ("out", ".git", "target", "second", "tools"))
        for name in sorted(names):
            yield os.path.join(folder, name)


def main(root):
    table = words()
    # a word with a capital inside is a word of ours wherever it stands
    plain = {old: new for old, new in table.items() if re.search("[a-z0-9][A-Z]", old) and "-" not in old}
    turned = 0
    for path in files(root):
        if not path.endswith((".antt", ".rt", ".md")):
            continue
        with open(path, encoding="utf-8") as f:
            old = f.read()
        if path.endswith(".antt"):
            new = turn_code(old, table, plain, "--")
        elif path.endswith(".rt"):
            new = turn_code(old, plain, plain, "//")
        else:
            new = turn_page(old, table)
        if new != old:
            turned += 1
            with open(path, "w", encoding="utf-8") as f:
                f.write(new)
    print(f"{turned} files turned")


main(sys.argv[1] if len(sys.argv) > 1 else os.path.dirname(HERE))
