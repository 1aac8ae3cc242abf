#!/usr/bin/env python3
"""Joins the files of a cycle's old proof into one Proof.antt, for answers.py, and writes its measures: tools/port/cycle.py FOLDER SOURCE.rt"""

import glob
import os
import re
import sys


def read(path):
    with open(path, encoding="utf-8") as f:
        return f.read()


def parameters(source, fn):
    m = re.search(r"fn %s(?:<[^>]*>)?\(([^)]*)\)" % fn, source)
    return [it.split(":")[0].strip().removeprefix("mut ") for it in m[1].split(",") if it.strip()]


def main():
    folder, source = sys.argv[1], read(sys.argv[2])
    crate = re.search(r"crates/(\w+)/", os.path.abspath(folder))[1]
    inside = folder.split("/proofs/", 1)[1].strip("/").replace("/", ".")
    uses, bodies, measures = {}, [], []
    for path in sorted(glob.glob(glob.escape(folder) + "/Proof/*.antt")):
        text = read(path)
        for m in re.finditer(r"(?m)^abbrev (?:pub )?μ-(\S+) : .*\nμ-\S+ κs a = (.*(?:\n .*)*)", text):
            fn = m[1].replace("-", "_")
            names = parameters(source, fn)
            body = re.sub(r"a((?:\.1)*)\.0", lambda it: "l." + names[it[1].count("1")], m[2])
            measures.append(f"abbrev pub decreases-{fn} : goal.decreases-{fn}\ndecreases-{fn} l = {body}")
        if path.endswith("Setting.antt"):
            continue
        lines, rest = text.split("\n"), []
        k = 0
        while k < len(lines):
            l = lines[k]
            if l.startswith("use "):
                while l.count("{") > l.count("}"):
                    k += 1
                    l += " " + lines[k].strip()
                m = re.match(r"use ([^\s{]+)\.\{(.*)\}$", l)
                if re.search(r"\.Setting\.|\.Lts-|\.Reads\b|\.Tie\b|\.Kinds\b|borrow\.Fn", l):
                    pass
                elif m:
                    uses.setdefault(m[1], [])
                    for it in m[2].split(","):
                        it = it.strip()
                        if it and it not in uses[m[1]]:
                            uses[m[1]].append(it)
                else:
                    uses.setdefault(l, None)
            else:
                rest.append(l)
            k += 1
        bodies.append("\n".join(rest))
    head = [f"use {k}.{{{', '.join(v)}}}" if v else k for k, v in uses.items() if v is None or v]
    with open(folder + "/Proof.antt", "w", encoding="utf-8") as f:
        f.write("\n".join(head) + "\n" + "\n".join(bodies))
    with open(folder + "/Invariants.antt", "w", encoding="utf-8") as f:
        f.write("-- The measure of each reader: 256 less its depth first.\nuse Rattle.std.proofs.Common.{◌+◌, ◌-◌, ◌*◌}\n")
        f.write(f"use Rattle.{crate}.proofs.{inside}.Given as goal\n\n" + "\n\n".join(measures) + "\n")
    print(len(measures), "measures")


main()
