#!/usr/bin/env python3
"""Counts the places of the points of docs/DESIGN-PASS.md in crates/*/src: tools/design.py [FOLDER] [-v], -v lists them.

A pattern is one line's, so a place is a line; what a count means stands in the page."""
import glob
import re
import sys

folder = next((a for a in sys.argv[1:] if not a.startswith("-")), ".")
files = sorted(glob.glob(f"{folder}/crates/*/src/**/*.rt", recursive=True))
lines = []
for name in files:
    with open(name, encoding="utf-8") as file:
        for number, line in enumerate(file, 1):
            lines.append((name[len(folder) + 1:], number, line.rstrip("\n")))

FUNCTION = re.compile(r"^\s*(?:pub(?:\(crate\))? )?(?:extern \"C\" )?fn (\w+)")


def signatures():
    """Each function's head, from `fn` to what ends it, on one line."""
    text, start = "", None
    for name, number, line in lines:
        if start is None:
            if not FUNCTION.match(line):
                continue
            start, text = (name, number), ""
        text += " " + line.split("//")[0].strip()
        if line.rstrip().endswith(("{", ")", "}")) or re.search(r"\b(requires|ensures)\b", line) or "->" in line:
            yield start[0], start[1], text.strip()
            start = None


def matching(pattern, only=None):
    seen = re.compile(pattern)
    return [(n, k, l.strip()) for n, k, l in lines if seen.search(l) and (only is None or re.search(only, n))]


def heads(*patterns):
    return [(n, k, t) for n, k, t in signatures() if all(re.search(p, t) for p in patterns)]


def named(test):
    """Functions whose name another function has in another crate, the mains aside."""
    seen = {}
    for n, k, t in signatures():
        seen.setdefault(FUNCTION.match(t).group(1), []).append((n, k, t))
    return [place for name, places in sorted(seen.items()) for place in places
            if name != "main" and test(name) and len({n.split("/")[1] for n, _, _ in places}) > 1]


def tables():
    """Files that give kinds as numbers, each counted once."""
    return [(n, k, t) for n, k, t in matching(r"^pub const \w+: (u32|usize) = \d+;", r"/(kinds|elements)\.rt|/marks/")
            if not any(n == m and k > j for m, j, u in matching(r"^pub const \w+: (u32|usize) = \d+;"))]


READERS = ("next_simple next_script next_script_func next_intermediate next_row next_rows term headed extend row_cells more_rows try_matrix "
           "open_group bracket bars other begun plain_item leaf").split()

POINTS = [
    ("1a", "variants for a refusal, an end, a failure or nothing, of own enums",
     matching(r"^\s+(Refused\(u8\)|NoRow|Nothing(\(Cursor\))?|End|Broken|Failed),$")),
    ("1b", "bool fields that say whether the fields beside them count",
     matching(r"^\s+pub (some|made|shut|more|met): bool,$")),
    ("1c", "refusals given by a number", matching(r"Refused\(\d+\)|^pub fn lacking.* -> u8$")),
    ("1d", "tables of kinds as numbers", tables()),
    ("1e", "arms for a script, a class or a token by a bare number", matching(r"^\s+[0-9]+( \| [0-9]+)* => (?!0x|Element::|Token::)")),
    ("1f", "a number that stands for none", matching(r"^(pub(\(crate\))? )?const (NO_\w+|NONE|ASTRAY|CHANGED|END|NEWLINE): ")),
    ("2a", "functions of one name in two crates, the readers aside", named(lambda name: name not in READERS)),
    ("2b", "readers of one name in parse and closers_pass", named(lambda name: name in READERS)),
    ("2c", "a size or an element's type in a name", heads(r"fn (put[16]|put_(one|two|three|four)|\w+_(small|large)|(all|cut|kept)_(bytes|words)|cut|kept)\(")),
    ("3a", "while", matching(r"^\s+('\w+: )?while ")),
    ("3b", "a loop that counts: += 1 or -= 1 at its end", matching(r"^\s+[a-z]\w* [+-]= 1;$")),
    ("3c", "loop", matching(r"\bloop \{")),
    ("4a", "conversions, copies and comparisons written as functions",
     heads(r"fn (number|of_number|wide\w*|smaller|same_bytes|same|is_same_\w+|copy_\w+|with_found|either|end_of)\(")),
    ("4b", "types with derives", matching(r"^#\[derive\(")),
    ("4c", "of these, with equality", matching(r"^#\[derive\(.*PartialEq")),
    ("5a", "heads with the token table and the work words", heads(r"tok: &\[u32\]", r"work: &")),
    ("5b", "heads with the three arrays of the spelling table, or two of them", heads(r"rows: &\[u16; ROW_WORDS\]|first: &\[u16; BYTE_WORDS\]")),
    ("5c", "heads with nine parameters or more", [h for h in heads(r"") if len(re.findall(r"\w: ", h[2])) >= 9]),
    ("6", "a table with a count beside it", heads(r"table: &\[u32\]", r"count: usize")),
    ("7", "arms of a switch on which step to run", matching(r"^\s+Call::\w+ => ")),
    ("8a", "if .. else with true or false as a branch", matching(r"\b(true|false) \} else \{|\} else \{ (true|false) \}")),
    ("8b", "lines that are true or false", matching(r"^\s+(return )?(true|false);?$")),
]

if __name__ == "__main__":
    for point, what, places in POINTS:
        print(f"{point:4} {len(places):5}  {what}")
        if "-v" in sys.argv:
            for name, number, text in places:
                print(f"            {name}:{number}: {text[:110]}")
