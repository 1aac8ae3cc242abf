#!/usr/bin/env python3
"""Print the spelling table of the Rust original, as rows for specs or as statics for code.

    make_spellings.py TOKENIZER_RS [--code]

The statics: the bytes of all rows one after another; for each row 32 times its start and the
kind of its token, and behind the last 32 times the end; the second byte of each row, or 0; and for
each byte value to 128, 64 times the rows that begin with a smaller byte, 32 more where the byte alone
is a spelling, and the kind that the byte has by itself.
"""

import sys

sys.dont_write_bytecode = True
from spellings import TOKENS, antt_row, rows_of_rust


def constant(name, kind, length, numbers):
    lines = [f"const {length}: usize = {len(numbers)};"]
    lines.append(f"static {name}: [{kind}; {length}] = [")
    for at in range(0, len(numbers), 20):
        lines.append("    " + " ".join(f"{number}," for number in numbers[at : at + 20]))
    return "\n".join(lines + ["];"])


def kind_alone(byte):
    """The kind of a byte that is no spelling."""
    if byte in b"\t\n\v\f\r ":
        return TOKENS.index("Space")
    if byte in b"0123456789":
        return TOKENS.index("Number")
    return TOKENS.index("Ident" if chr(byte).isalpha() else "Operator")


def main():
    if len(sys.argv) not in (2, 3) or sys.argv[2:] not in ([], ["--code"]):
        sys.exit("usage: make_spellings.py TOKENIZER_RS [--code]")
    rows = rows_of_rust(sys.argv[1])
    if len(sys.argv) == 2:
        for row in rows:
            print(f"    {antt_row(row)}")
        return
    keys = [spelling.encode() for spelling, _ in rows]
    kinds = [TOKENS.index(token) for _, token in rows]
    words, start = [], 0
    for key, kind in zip(keys, kinds):
        words.append(32 * start + kind)
        start += len(key)
    words.append(32 * start)
    alone = {key[0]: 32 + kind for key, kind in zip(keys, kinds) if len(key) == 1}
    firsts = [
        64 * sum(key[0] < byte for key in keys) + alone.get(byte, kind_alone(byte))
        for byte in range(129)
    ]
    print(constant("BYTES", "u8", "ALL_BYTES", list(b"".join(keys))))
    print(constant("ROWS", "u16", "ROW_WORDS", words))
    print(constant("SECONDS", "u8", "ALL_ROWS", [key[1] if len(key) > 1 else 0 for key in keys]))
    print(constant("FIRST", "u16", "BYTE_WORDS", firsts))


main()
