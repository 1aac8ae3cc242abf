#!/usr/bin/env python3
"""Brings the repository's own definitions and lemmas to today's spelling, after port.py: run once, at the top.

usage: tools/port/names.py [--map]

A word is in snake case. A dash stays where it joins a definition's name to what is said of it (`next_script-agree`), or a fact's or
constructor's name follows; else it becomes `_`. Functions of src/, strings, names of the library and of goals keep their names.
Names that would fall together get `_lem` (a lemma) or, where both are definitions, the name in BOTH. --map prints the names alone.
"""

import collections
import glob
import os
import re
import sys

W = r"[^\s(){}.;,@\"«»\[\]\\]+"
HEAD = re.compile(r"(?m)^\s*(?:(?:abbrev|unfoldable|pub)\s+)*(%s(?: %s)*) :(?=\s)" % (W, W))
USE = re.compile(r"(?m)^\s*(?:pub )?use ([^\s{]+)\.\{([^}]*)\}")
CRATES = sorted(os.listdir("crates"))
# two definitions, or a definition and a lemma of the same words: the first is what is written for the other
BOTH = {"wellFormed": "is_well_formed"}
LIBRARY = "length get_or take drop set append map".split()


def read(path):
    with open(path, encoding="utf-8") as f:
        return f.read()


def snake(name):
    return re.sub(r"(?<=[a-z0-9])([A-Z])", lambda m: "_" + m[1].lower(), name)


def is_camel(name):
    return bool(re.match(r"[a-z]", name) and re.search(r"[a-z0-9][A-Z]", name))


def own(path):
    m = re.match(r"Rattle\.(\w+)\.", path)
    return m and m[1] in CRATES


def scan():
    defs, specs, lib = collections.defaultdict(set), set(), collections.defaultdict(set)
    for f in glob.glob("crates/*/specs/**/*.antt", recursive=True) + glob.glob("crates/*/proofs/**/*.antt", recursive=True):
        t = re.sub(r"--[^\n]*", "", read(f))
        for m in USE.finditer(t):
            if not own(m[1]):
                for n in m[2].split(","):
                    lib[n.strip().split(" as ")[0]].add(f)
        if re.search(r"/proofs/.*/", f):
            continue
        for m in HEAD.finditer(t):
            for n in m[1].split():
                defs[n].add(f)
                if "/specs/" in f:
                    specs.add(n)
    return defs, specs, lib


def spelled(name, names):
    """The name in today's spelling."""
    parts = name.split("-")
    for k in range(len(parts) - 1, 0, -1):
        head, tail = "-".join(parts[:k]), "_".join(parts[k:])
        if re.match(r"[A-Z]", parts[k]) and k == len(parts) - 1 or (k == 1 and head in names) or (k == 1 and re.match(r"[A-Z]", head)):
            return spelled(head, names) + "-" + snake(tail)
    return snake("_".join(parts))


def table():
    defs, specs, lib = scan()
    names = {n for n in defs if "-" not in n and len(n) > 2} | set(LIBRARY)
    out = {}
    for n in sorted(defs, key=lambda n: (n not in specs, "-" in n, n)):
        if (is_camel(n) or "-" in n) and n not in lib and re.search(r"[A-Za-z]", n):
            out[n] = BOTH.get(n) or spelled(n, names)
    taken = collections.defaultdict(list)
    for n in defs:
        if out.get(n, n) == n:
            taken[n].append(n)
    for n in sorted(out, key=lambda n: (n not in specs, "-" in n, n)):
        if out[n] == n:
            continue
        clash = taken[out[n]]
        if n in specs and clash and not specs & set(clash):
            print(f"together: {n} with the lemma {clash}", file=sys.stderr)
            for it in clash:
                out[it] = out.get(it, it) + "_lem"
        elif clash or out[n] in lib:
            print(f"together: {n} with {clash or 'the library'}", file=sys.stderr)
            out[n] += "_lem"
        taken[out[n]].append(n)
    return {a: b for a, b in out.items() if a != b}, specs


def in_antt(text, names, path):
    """Comments too, where a name is in camel case or has a dash and stands between backticks."""
    mine = set()
    if re.search(r"/proofs/.*/", path):
        mine = {n for m in re.finditer(r"(?m)^(?:pub )?(%s) : (?:tie|goal)\." % W, text) for n in [m[1]]}

    def put(m):
        if m[0].startswith("--"):
            return in_comment(m[0], names)
        if m[0] in mine or m[0] not in names:
            return m[0]
        before = text[m.start() - 1 : m.start()]
        if before == "." and "-" in names[m[0]]:
            return m[0]
        return names[m[0]]

    return re.sub(r"--[^\n]*|\"(?:[^\"\\]|\\.)*\"|" + W, put, text)


def in_comment(text, names):
    text = re.sub(r"`([^`\n]+)`", lambda m: "`" + re.sub(W, lambda w: names.get(w[0], w[0]), m[1]) + "`", text)
    return re.sub(r"(?<![\w-])[a-z]\w*(?:-\w+)*(?![\w-])", lambda m: names[m[0]] if m[0] in names and is_camel(m[0]) else m[0], text)


def in_source(text, names):
    """Clauses, imports and comments; strings and code keep their words."""

    def line(l):
        if re.match(r"\s*//", l):
            return in_comment(l, names)
        ghost = re.match(r"\s*(ghost|requires|ensures)\b", l)
        l = re.sub(r"(?<=\.)[a-z]\w*[A-Z]\w*", lambda m: names.get(m[0], m[0]), l)
        pattern = r"\"(?:[^\"\\]|\\.)*\"|(?<![\w.-])" + (r"[^\s(){}.;,@\"«»\[\]\\]+" if ghost else r"[a-z]\w*")
        return re.sub(pattern, lambda m: names.get(m[0], m[0]) if ghost or is_camel(m[0]) else m[0], l)

    return "\n".join(line(l) for l in text.split("\n"))


def in_edit(text, names):
    target = re.search(r"(?m)^file: (\S+)", text)
    turn = in_antt if target and target[1].endswith(".antt") else None

    def line(l):
        m = re.match(r"(old|new): (.*)", l)
        if not m:
            return l
        return m[1] + ": " + (turn(m[2], names, "specs/") if turn else in_source(m[2], names))

    return "\n".join(line(l) for l in text.split("\n"))


def main():
    names, specs = table()
    if "--map" in sys.argv:
        for a, b in sorted(names.items()):
            print(a, b)
        return
    for path in sorted(glob.glob("crates/*/**/*", recursive=True)) + glob.glob("docs/*.md") + ["README.md"]:
        if not os.path.isfile(path) or "/out/" in path:
            continue
        if path.endswith(".antt"):
            new = in_antt(read(path), names, path)
        elif path.endswith(".rt"):
            new = in_source(read(path), names)
        elif path.endswith(".edit"):
            new = in_edit(read(path), names)
        elif path.endswith(".md"):
            new = in_comment(read(path), names)
        else:
            continue
        if new != read(path):
            with open(path, "w", encoding="utf-8") as f:
                f.write(new)
            print(path)


main()
