#!/usr/bin/env python3
"""The choice between two readings is `when b then m else n`: `if◌then◌else◌` is the library's own word today. Run once, at the top, after names.py."""

import glob
import re


def turned(text):
    return re.sub(r"--[^\n]*|\"(?:[^\"\\]|\\.)*\"|(?<![^\s(){};,\[\]])if(?=\s|◌)", lambda m: "when" if m[0] == "if" else m[0], text)


for path in sorted(glob.glob("crates/*/**/*.antt", recursive=True)):
    text = open(path, encoding="utf-8").read()
    if "/out/" in path or "if◌then◌else◌" not in text or "Prelude.{" in text and re.search(r"Prelude\.\{[^}]*if◌then◌else◌", text):
        continue
    open(path, "w", encoding="utf-8").write(turned(text))
    print(path)
for path in sorted(glob.glob("crates/reading/must-fail/*.edit")):
    text = open(path, encoding="utf-8").read()
    new = "\n".join(turned(l) for l in text.split("\n"))
    if new != text:
        open(path, "w", encoding="utf-8").write(new)
        print(path)
