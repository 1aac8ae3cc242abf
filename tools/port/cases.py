#!/usr/bin/env python3
"""Turns `λ t. elim t [ .. ]` into `(elim [ .. ])`, where the goal changes with what is matched: tools/port/cases.py FILE.."""

import re
import sys


def main():
    for path in sys.argv[1:]:
        text, n = open(path, encoding="utf-8").read(), 0
        at = 0
        while True:
            m = re.search(r"λ ((?:[^\s.()]+ )*)([^\s.()]+)\. elim (\S+) \[", text[at:])
            if not m:
                break
            start, at2 = at + m.start(), at + m.end()
            names = m[1].split() + [m[2]]
            if m[3] not in names:
                at = at + m.start() + 2
                continue
            depth, k, marks = 1, at2, []
            while depth:
                depth += {"[": 1, "]": -1, "(": 1, ")": -1}.get(text[k], 0)
                marks += [k] if text[k] == "↦" and depth == 1 else []
                k += 1
            behind = names[names.index(m[3]) + 1 :]
            if behind:
                # what stands behind the matched variable is bound in each case
                front = names[: names.index(m[3])]
                inner = text[at2:k]
                for it in reversed(marks):
                    inner = inner[: it - at2 + 1] + f" λ {' '.join(behind)}." + inner[it - at2 + 1 :]
                text = text[:start] + "(" + (f"λ {' '.join(front)}. " if front else "") + "elim [" + inner + ")" + text[k:]
                at, n = start + 2, n + 1
                continue
            front = f"λ {m[1].strip()}. " if m[1].strip() else ""
            text = text[:start] + f"({front}elim [" + text[at2:k] + ")" + text[k:]
            at, n = start + 2, n + 1
        open(path, "w", encoding="utf-8").write(text)
        print(path, n)


main()
