"""The spelling table, read from the Rust original or from the project's list of rows.

A row is a pair of a spelling and its token, the token written as in the rows: `Frac`, ..,
`Symbol Glyph`, ..
"""

import re
import sys

CLASSES = "Glyph Name Joining JoiningName Leading LeadingName Space Separator".split()
# in the order of document 01's numbers, from 0
TOKENS = (
    "Frac Super Sub Sep Number Text Ident Operator".split()
    + [f"Symbol {name}" for name in CLASSES]
    + "Sign Function Unary Binary OpenBracket CloseBracket OpenCloseBracket Space".split()
)
TRUE_MINUS = "\u2212"


def read(path):
    with open(path, encoding="utf-8") as file:
        return file.read()


def rust_string(literal):
    """The text of a Rust string literal, quotes included."""

    def escaped(found):
        if found[1]:
            return chr(int(found[1], 16))
        if found[2] not in '\\"':
            sys.exit(f"escape in {literal}")
        return found[2]

    return re.sub(r"\\(?:u\{(\w+)\}|(.))", escaped, literal[1:-1])


def tokens_of_rust(path):
    """The entries of ASCIIMATH_TOKENS: spelling, token, display form or None."""
    source = read(path)
    block = re.search(r"pub static ASCIIMATH_TOKENS.*?\n    tokens!\((.*?)\n    \)\n", source, re.S)
    if not block:
        sys.exit(f"{path}: no ASCIIMATH_TOKENS")
    words = re.findall(r'"(?:[^"\\]|\\.)*"|//[^\n]*|=>|[,;]|\w+\(\w+\)|\w+|\S', block[1])
    words = [word for word in words if not word.startswith("//")]
    entries, at = [], 0

    def literal():
        nonlocal at
        if not words[at].startswith('"'):
            sys.exit(f"{path}: {words[at]} where a string should be")
        at += 1
        return rust_string(words[at - 1])

    while at < len(words):
        token = words[at].replace("(", " ").replace(")", "")
        if token not in TOKENS or words[at + 1] != "=>":
            sys.exit(f"{path}: {words[at]} where a token should be")
        at += 1
        while words[at] != ";":  # after `=>` or `,`
            at += 1
            spelling, form = literal(), None
            if words[at] == "=>":
                at += 1
                form = literal()
            if words[at] not in ",;":
                sys.exit(f"{path}: {words[at]} after {spelling}")
            entries.append((spelling, token, form))
        at += 1
    return entries


def rows_of_rust(path):
    """The ASCII spellings of asciimath_spellings, sorted by bytes."""
    entries = tokens_of_rust(path)
    rows = [(spelling, token) for spelling, token, _ in entries]
    spelled, forms = {spelling for spelling, _ in rows}, set()
    for _, token, form in entries:
        # as is_new_spelling: not blank, no spelling, no earlier form
        if form and form.strip() and form not in spelled and form not in forms:
            rows.append((form, token))
        forms.add(form)
    ascii_rows = sorted(row for row in rows if row[0].isascii())
    others = [spelling for spelling, _, _ in entries if not spelling.isascii()]
    added = [row for row in ascii_rows if row[0] not in spelled]
    if others != [TRUE_MINUS] or added != [("\\", "Symbol Joining")]:
        sys.exit(f"{path}: other than ASCII {others}, entered as display forms {added}")
    return ascii_rows


def rows_of_antt(path):
    """The lines `row "alpha" (Symbol Glyph) ∷`, in their order."""
    rows = []
    for number, line in enumerate(read(path).splitlines(), 1):
        if not line.lstrip().startswith('row "'):
            continue
        found = re.fullmatch(r'\s*row "((?:[^"\\]|\\[\\"])+)" (?:\((Symbol \w+)\)|(\w+)) ∷( \[\])?\s*', line)
        token = found and (found[2] or found[3])
        if token not in TOKENS:
            sys.exit(f"{path}:{number}: {line.strip()}")
        rows.append((re.sub(r"\\(.)", r"\1", found[1]), token))
    return rows


def forms_of_rust(path):
    """The display form of each row, or None, in the order of the rows."""
    forms = {spelling: form for spelling, _, form in tokens_of_rust(path)}
    return [(spelling, forms.get(spelling)) for spelling, _ in rows_of_rust(path)]


def forms_of_antt(path):
    """The lines `typed "!" ∷` and `drawn "!=" "≠" ∷`, in their order."""
    quoted = r'("(?:[^"\\]|\\.)*")'
    lines = re.findall(rf"^ +(typed|drawn) {quoted}(?: {quoted})? ∷$", read(path), re.M)
    return [(rust_string(spelling), rust_string(form) if kind == "drawn" else None) for kind, spelling, form in lines]


def rows_of(path):
    """The rows of either kind of file."""
    return rows_of_rust(path) if path.endswith(".rs") else rows_of_antt(path)


def antt_row(row):
    spelling, token = row
    spelling = spelling.replace("\\", "\\\\").replace('"', '\\"')
    return f'row "{spelling}" {f"({token})" if " " in token else token} ∷'
