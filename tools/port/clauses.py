#!/usr/bin/env python3
"""Writes the clauses of impossible cases that a check asks for: tools/port/clauses.py OUTPUT CRATE. OUTPUT is what `rt check` said."""

import os
import re
import sys


def main():
    said, crate = open(sys.argv[1], encoding="utf-8", errors="replace").read(), sys.argv[2]
    done, todo = set(), []
    for m in re.finditer(r"(?m)^(\./\S[^:\n]*\.antt):(\d+):\d+: error: `([^`]+)`: write the clauses?\n((?:  .*\n)+)", said):
        path, name, cases = os.path.join(crate, m[1]), m[3], []
        for line in m[4].split("\n"):
            if re.match(r"  %s .* = elim " % re.escape(name), line):
                cases.append(line.strip())
        if cases and (path, m[2]) not in done:
            done.add((path, m[2]))
            todo.append((path, int(m[2]), name, cases))
    for path, at, name, cases in sorted(todo, reverse=True):
        lines = open(path, encoding="utf-8").read().split("\n")
        indent = re.match(r"\s*", lines[at - 1])[0]
        k, last = at, at
        while k < len(lines):
            l = lines[k]
            if l.strip() and not l.startswith(indent + " ") and not re.match(r"%s%s(\s|$)" % (indent, re.escape(name)), l) and not re.match(indent + r"unfolding\s", l):
                break
            if l.strip():
                last = k
            k += 1
        lines[last + 1 : last + 1] = [indent + c for c in cases]
        open(path, "w", encoding="utf-8").write("\n".join(lines))
        print(f"{path}:{last + 2}: {len(cases)} clauses of {name}")


main()
