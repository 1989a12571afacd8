#!/usr/bin/env python3
"""Spells the repository's own definitions and lemmas as the toolchain's style asks.

usage: python3 tools/respell.py       at the top of the repository, once, after the toolchain's port script

tools/respell.txt has the table, an old and a new name a line. A definition, a field or a
constructor is in snake case, a type in camel case, and a lemma joins the names that it speaks of
by a dash. Whole names alone are changed: in specs/ and proofs/ outside comments, in the clauses of
src/, and between backticks in the documents.
"""
import os
import re

TABLE = dict(line.split() for line in open(os.path.join(os.path.dirname(__file__), "respell.txt"), encoding="utf8"))
STOPS = r"[^\s(){}\[\];,.«»\"`\\:]+"


RESERVED = {"record", "data", "open", "as", "in"}


def plain(name):
    return re.fullmatch(r"[A-Za-z_][A-Za-z0-9_]*", name) is not None and name not in RESERVED


def renamed(text):
    return re.sub(STOPS, lambda m: TABLE.get(m.group(0), m.group(0)), text)


def antt(line):
    code, mark, comment = line, "", ""
    at = re.search(r"(^|\s)--(\s|$)", line)
    if at:
        code, comment = line[: at.start()], line[at.start():]
    return renamed(code) + mark + ticked(comment)


def ticked(text):
    return re.sub(r"`[^`\n]*`", lambda m: renamed(m.group(0)), text)


def quoted(text):
    def one(m):
        new = TABLE.get(m.group(1), m.group(1))
        return new if plain(new) else "«" + new + "»"

    return re.sub(r"«([^»]+)»", one, text)


def clauses(text):
    # a name with a dash stands in clauses and their imports alone
    def line(code):
        if code.lstrip().startswith("//"):
            return code
        return re.sub(STOPS, lambda m: TABLE.get(m.group(0), m.group(0)) if "-" in m.group(0) else m.group(0), code)

    return "\n".join(line(code) for code in quoted(text).split("\n"))


def main():
    for root, folders, files in os.walk("."):
        folders[:] = [f for f in folders if f not in (".git", "out", "target", "tools")]
        for name in files:
            path = os.path.join(root, name)
            if name.endswith(".antt"):
                turn = lambda t: "\n".join(antt(line) for line in t.split("\n"))
            elif name.endswith(".rt") or name.endswith(".edit"):
                turn = clauses
            elif name.endswith(".md"):
                turn = ticked
            else:
                continue
            old = open(path, encoding="utf8").read()
            new = turn(old)
            if new != old:
                open(path, "w", encoding="utf8").write(new)


main()
