#!/usr/bin/env python3
"""Spells this repository's own definitions and lemmas as Rattle's libraries spell theirs: words in snake case.

usage: tools/respell.py [ROOT]      ROOT is the repository's top, by default the one that this file is in

It was run once, right behind the kit's port.py, and respelled.tsv beside it is its table: an old name, a tab, the new one. A dash stays
where it joins a definition's name with that of a list function (`length-put`); a lemma that would have a definition's name ends in
`_lem`. Names of Rust functions, types and fields, and the names that Rattle makes, are not in the table. What it turns: the code of .antt
files and, in .rt files, `ghost use` items and clauses; in comments only a name with a capital in it, or one in backquotes.
A name behind a dot is turned where it is a field, or where the file brings the module before the dot under its own name.
"""

import os
import re
import sys

HERE = os.path.dirname(os.path.realpath(__file__))
TOKEN = re.compile(r"[^\s(){}\[\].;,@\"«»`]+")
ALIAS = re.compile(r"\buse (Rattle\.\S+) as (\S+)")
MADE = re.compile(r"\.(Tie|Ties|Goals|Given|Statement|Kinds|Reads|Met|Code|Proof)$")
CLAUSE = re.compile(r"^\s*(requires|ensures|ghost)\b")
# Lemmas that had the snake case that a definition gets now. They are turned in these files alone.
ONLY_IN = {
    "store_bytes": r"/packed_string/proofs/(Source|packed_string/.*)\.antt$",
    "div_ceil": r"/packed_string/proofs/\w+\.antt$",
    "read_back": r"/(streams|dump)/proofs/.*\.antt$",
    "group_at": r"/commands/proofs/read_device_vars/Source\.antt$",
}


def table():
    with open(os.path.join(HERE, "respelled.tsv"), encoding="utf-8") as f:
        return dict(line.rstrip("\n").split("\t") for line in f)


def camel(name):
    return bool(re.search(r"[a-z][A-Z]", name))


class Turner:
    def __init__(self, names, path, text):
        self.names, self.path = names, path
        self.own = {m[2] for m in ALIAS.finditer(text) if not MADE.search(m[1])}

    def turned(self, name, before):
        if name not in self.names:
            return name
        if name in ONLY_IN and not re.search(ONLY_IN[name], self.path):
            return name
        if before.endswith(".") and not camel(name):
            head = re.split(r"[^\w.'·-]", before)[-1].split(".")[0]
            if head not in self.own:
                return name
        return self.names[name]

    def code(self, text):
        return TOKEN.sub(lambda m: self.turned(m[0], text[: m.start()]), text)

    def comment(self, text):
        text = re.sub(r"`([^`]*)`", lambda m: "`" + self.code(m[1]) + "`", text)
        return TOKEN.sub(lambda m: self.names.get(m[0], m[0]) if camel(m[0]) else m[0], text)


def antt(turner, text):
    lines = []
    for line in text.split("\n"):
        m = re.search(r"(?<!\S)--(?=\s|$)", line)
        at = m.start() if m else len(line)
        lines.append(turner.code(line[:at]) + turner.comment(line[at:]))
    return "\n".join(lines)


def rattle(turner, text):
    lines, ghost, depth = [], False, 0
    for line in text.split("\n"):
        bare = line.strip()
        if bare.startswith("//"):
            lines.append(turner.comment(line))
            continue
        if not ghost and (bare.startswith("ghost use") or CLAUSE.match(line)):
            ghost, depth = True, 0
        if ghost:
            lines.append(turner.code(line))
            depth += line.count("{") - line.count("}")
            if depth <= 0 and (";" in line or not bare.startswith("ghost use")):
                ghost = False
        else:
            lines.append(line)
    return "\n".join(lines)


def main(argv):
    root = argv[0] if argv else os.path.dirname(HERE)
    names = table()
    for folder, dirs, files in os.walk(os.path.join(root, "crates")):
        dirs[:] = sorted(d for d in dirs if d != "out")
        for file in sorted(files):
            turn = {".antt": antt, ".rt": rattle}.get(os.path.splitext(file)[1])
            if not turn:
                continue
            path = os.path.join(folder, file)
            with open(path, encoding="utf-8") as f:
                text = f.read()
            new = turn(Turner(names, path, text), text)
            if new != text:
                with open(path, "w", encoding="utf-8") as f:
                    f.write(new)


if __name__ == "__main__":
    main(sys.argv[1:])
