#!/usr/bin/env python3
"""Respells the repository's own definitions and lemmas as today's library does: types in upper camel case, all else in
snake case.

usage: python3 tools/respell.py [--look]     in the repository's root, once, after the kit's port.py

Names that the checker makes (goals, steps) and names of the library keep their dashes. Functions of src/, strings and
comments are left as they are; docs/ and README.md follow in their code spans. With --look it writes nothing and lists
the names that would fall together with another name of the same file.
"""
import os
import re
import sys

WORD = r"[A-Za-z_][A-Za-z0-9_']*(?:-[A-Za-z0-9_']+)+"
TOKEN = re.compile(r"(?<![A-Za-z0-9_'\-])(" + WORD + r")(?![A-Za-z0-9_'\-])")
# What a print-out calls the kinds of entries; the pages quote them so.
KINDS = {"pay-in", "pay-out", "trade-fee"}
CRATES = sorted(os.listdir("crates"))
OWN_PATH = re.compile(r"Rattle\.(?:%s)\." % "|".join(CRATES))


def files(ends):
    for folder, dirs, names in os.walk("crates"):
        dirs[:] = sorted(d for d in dirs if d != "out")
        for name in sorted(names):
            if name.endswith(ends):
                yield os.path.join(folder, name)


def plain(text):
    """The text without antt's comments."""
    return re.sub(r"--[^\n]*", "", text)


def declared():
    """The dashed names that the repository declares, and those among them that are fields of records."""
    names, fields, foreign = set(), set(), set()
    for path in files(".antt"):
        text = plain(open(path, encoding="utf-8").read())
        for m in re.finditer(r"(?m)^(?:(?:pub|abbrev|unfoldable) )*(?:data |record |ruleset )?(?:pub )?(" + WORD + r")(?= |$)(.*)", text):
            rest = m[2].strip()
            head = re.match(r"(?:[\(\{].*[\)\}] )?: ?(.*)", rest)
            if head and not re.match(r"goal\.", head[1]):
                names.add(m[1])
            elif rest == ":" or re.match(r"[\(\{].*:", rest) and head:
                names.add(m[1])
        for m in re.finditer(r"(?m)^ +(?:pub )?(" + WORD + r") ?:", text):
            names.add(m[1])
            fields.add(m[1])
        for m in re.finditer(r"use ([\w.+'◌·-]+)\.\{([^}]*)\}", text):
            if not OWN_PATH.match(m[1]):
                foreign.update(n.strip() for n in m[2].split(","))
    return names - foreign, fields - foreign, names & foreign


def respelled(name):
    parts = name.split("-")
    if name[0].isupper():
        return parts[0] + "".join(p[0].upper() + p[1:] for p in parts[1:])
    return "_".join(parts)


def turned(text, names, fields):
    def one(m):
        before = text[max(0, m.start() - 24):m.start()]
        name = m[1]
        if name not in names:
            return m[0]
        if before.endswith("."):
            owner = re.search(r"([A-Za-z_][\w'\-]*)\.$", before)
            if owner and owner[1] in ("c", "goal", "l", "w") and name not in fields:
                return m[0]
        return respelled(name)
    return TOKEN.sub(one, text)


def outside(text, skip, turn):
    """Turns the text but for what the pattern skip finds."""
    out, at = [], 0
    for m in re.finditer(skip, text):
        out += [turn(text[at:m.start()]), m[0]]
        at = m.end()
    return "".join(out) + turn(text[at:])


def main():
    names, fields, both = declared()
    look = "--look" in sys.argv
    if both:
        print("also in the library, left: " + " ".join(sorted(both)))
    news = {}
    for n in names:
        news.setdefault(respelled(n), []).append(n)
    for new, olds in sorted(news.items()):
        if len(olds) > 1:
            print("fall together: " + " ".join(olds))
    for path in list(files(".antt")) + list(files(".rt")):
        text = open(path, encoding="utf-8").read()
        skip = r"--[^\n]*|\"[^\"]*\"" if path.endswith(".antt") else r"//[^\n]*|b?\"(?:[^\"\\]|\\.)*\""
        new = outside(text, skip, lambda t: turned(t, names, fields))
        if look and new != text:
            bare = outside(text, skip, lambda t: t)
            words = set(re.findall(r"(?<![\w'.\-])[A-Za-z_][\w']*(?![\w'\-])", plain(bare)))
            for n in sorted(set(TOKEN.findall(bare)) & names):
                if respelled(n) in words:
                    print(f"{path}: {n} meets {respelled(n)}")
        elif new != text:
            open(path, "w", encoding="utf-8").write(new)
    pages = ["README.md"] + [os.path.join("docs", p) for p in sorted(os.listdir("docs")) if p.endswith(".md")]
    for path in pages:
        text = open(path, encoding="utf-8").read()
        new = re.sub(r"`(" + WORD + r")`", lambda m: "`" + respelled(m[1]) + "`" if m[1] in names and m[1] not in KINDS else m[0], text)
        if not look and new != text:
            open(path, "w", encoding="utf-8").write(new)


main()
