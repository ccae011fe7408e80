#!/usr/bin/env python3
"""Respells the repository's own definitions and lemmas as today's Rattle does: words in snake case.

usage: python3 tools/port_names.py [ROOT]

Run once, after the kit's port.py: ROOT (here, if left out) is a checkout that port.py has turned. tools/port_names.txt has a line
'OLD NEW' for each name. The first part, up to the line '--', holds the names that port.py itself respelled in crates/: they are
respelled here where it does not look, in the must-fail edits. The second part is respelled in specs/, proofs/, the clauses of src/
and the must-fail edits. Functions of src/, strings, and what Rattle generates keep their names: a name behind a dot is left alone
in the proof of a function, unless it is a field of one of the repository's own records.
"""

import os
import re
import sys

HERE = os.path.dirname(os.path.realpath(__file__))
TOKEN = re.compile(r"--[^\n]*|//[^\n]*|\"[^\"\n]*\"|[^\s(){}\[\];,.«»⌜⌝λ`]+")
TICKED = re.compile(r"`[^`\n]*`")


def names():
    first, second = {}, {}
    at = first
    with open(os.path.join(HERE, "port_names.txt"), encoding="utf-8") as f:
        for line in f:
            words = line.split()
            if words == ["--"]:
                at = second
            elif len(words) == 2:
                at[words[0]] = words[1]
    return first, second


def fields(paths):
    """The fields and constructors of the repository's records and data types."""
    found = set()
    for p in paths:
        inside = False
        for line in open(p, encoding="utf-8"):
            if re.match(r"(pub )?(record|data) ", line):
                inside = True
                continue
            if inside and line.strip() and not line[0].isspace():
                inside = False
            if inside:
                m = re.match(r"\s+(?:pub )?([^\s(){};,.:]+(?: [^\s(){};,.:]+)*) : ", line)
                if m:
                    found.update(m[1].split())
    return found


def turn(text, new, kept_behind_dot):
    def one(m):
        w = m[0]
        if w.startswith(("--", "//")):
            # in a comment only what stands between backticks, or cannot be an English word
            w = TICKED.sub(lambda t: turn(t[0], new, lambda _: False), w)
            return re.sub(r"\b[a-z]+[A-Z]\w*\b", lambda t: new.get(t[0], t[0]), w)
        if w[-1] == ":" and w[:-1] in new:
            return new[w[:-1]] + ":"
        if w not in new:
            return w
        if m.start() and text[m.start() - 1] == "." and kept_behind_dot(w):
            return w
        return new[w]

    return TOKEN.sub(one, text)


def main(argv):
    root = argv[1] if len(argv) > 1 else os.path.dirname(HERE)
    first, second = names()
    sources, edits = [], []
    for folder, dirs, files in os.walk(os.path.join(root, "crates")):
        dirs[:] = sorted(d for d in dirs if d != "out")
        for f in sorted(files):
            p = os.path.join(folder, f)
            if f.endswith((".rt", ".antt")):
                sources.append(p)
            elif f.endswith(".edit"):
                edits.append(p)
    own = fields([p for p in sources if p.endswith(".antt")])
    changed = 0
    for p in sources + edits:
        with open(p, encoding="utf-8") as f:
            text = f.read()
        if p.endswith(".edit"):
            out = turn(turn(text, first, lambda _: False), second, lambda _: False)
        elif os.path.basename(p) == "Proof.antt":
            out = turn(text, second, lambda w: w not in own)
        else:
            out = turn(text, second, lambda _: False)
        if out != text:
            changed += 1
            with open(p, "w", encoding="utf-8") as f:
                f.write(out)
    print(f"port_names: {changed} files")


if __name__ == "__main__":
    main(sys.argv)
