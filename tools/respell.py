#!/usr/bin/env python3
"""Gives the repository's own definitions and lemmas their spelling: words in snake case, types in camel case.

usage: python3 tools/respell.py [TOP]

Run once at the top, after the kit's own port script. tools/respell.tsv lists each old name and its new one. Every file of specs/ and proofs/,
the clauses and imports of src/, the edits of must-fail/, and what pages and comments set in backquotes are turned;
strings and the names of functions in src/ stay.
"""

import os
import re
import sys

HERE = os.path.dirname(os.path.realpath(__file__))
TOKEN = re.compile(r"[^\s(){}\[\],;.\"λ⌜⌝@:=`]+")
STRING = re.compile(r'"(?:\\.|[^"\\\n])*"')
QUOTED = re.compile(r"`[^`\n]*`")
# an alias that says what the name says now
SELF = re.compile(r"\b([A-Za-z_]+) as \1(?=[,}])")


def table():
    with open(os.path.join(HERE, "respell.tsv"), encoding="utf-8") as f:
        return dict(line.rstrip("\n").split("\t") for line in f)


def turn(text, names):
    return TOKEN.sub(lambda m: names.get(m.group(0), m.group(0)), text)


def turn_code(line, names, mark):
    """Turns a line but for its strings, and of its comment what stands in backquotes."""
    cut = re.search(r"(^|\s)" + mark, line)
    at = cut.start() if cut else len(line)
    out, last = "", 0
    for m in STRING.finditer(line[:at]):
        out += turn(line[last : m.start()], names) + m.group(0)
        last = m.end()
    out += turn(line[last:at], names)
    return out + QUOTED.sub(lambda m: turn(m.group(0), names), line[at:])


def turn_file(path, names):
    with open(path, encoding="utf-8") as f:
        old = f.read()
    if path.endswith(".md"):
        new = QUOTED.sub(lambda m: turn(m.group(0), names), old)
    else:
        mark = "//" if path.endswith(".rt") else "--"
        new = "\n".join(turn_code(line, names, mark) for line in old.split("\n"))
        new = SELF.sub(r"\1", new)
    if new != old:
        with open(path, "w", encoding="utf-8") as f:
            f.write(new)
        return 1
    return 0


def main(top):
    names, turned = table(), 0
    for folder, dirs, files in os.walk(top):
        dirs[:] = sorted(d for d in dirs if d not in ("out", ".git"))
        for name in sorted(files):
            if name.endswith((".rt", ".antt", ".edit", ".md")):
                turned += turn_file(os.path.join(folder, name), names)
    print(f"respell: {turned} files turned by {len(names)} names")


if __name__ == "__main__":
    main(sys.argv[1] if len(sys.argv) > 1 else ".")
