#!/usr/bin/env python3
"""Append the rows of the tokens to the Rust's tokens of texts, as the program token_trials prints them.

    token_rows.py TOKENIZER_RS TEXTS ANSWERS

TEXTS has a text in hex on each line, ANSWERS its tokens as start,len,kind. A token has the row of its
spelling, counted from 0 in the table sorted by bytes, unless it is a bracket that a text command took.
"""

import sys

sys.dont_write_bytecode = True
from spellings import TOKENS, rows_of_rust

OPEN_BRACKET, TEXT = TOKENS.index("OpenBracket"), TOKENS.index("Text")


def numbered(path):
    """The row of each spelling and the kind of its token."""
    rows = sorted((spelling.encode(), TOKENS.index(token)) for spelling, token in rows_of_rust(path))
    return {row: number for number, row in enumerate(rows)}


def taken(text, tokens):
    """How many tokens at the front a text command before them took: a bracket, its text, its closer."""
    kinds = [kind for _, _, kind in tokens[:2]]
    if kinds != [OPEN_BRACKET, TEXT] or tokens[1][0] != tokens[0][0] + 1:
        return 0
    return 3 if tokens[1][0] + tokens[1][1] < len(text) else 2


def rows_of(text, tokens, numbers):
    at = 0
    while at < len(tokens):
        start, length, kind = tokens[at]
        part = text[start : start + length]
        row = numbers.get((part, kind))
        if row is not None:
            yield f" {start}:{row}"
        at += 1
        if row is not None and part in (b"text", b"mbox"):
            at += taken(text, tokens[at:])


def main():
    if len(sys.argv) != 4:
        sys.exit("usage: token_rows.py TOKENIZER_RS TEXTS ANSWERS")
    numbers = numbered(sys.argv[1])
    with open(sys.argv[2], encoding="ascii") as texts, open(sys.argv[3], encoding="ascii") as answers:
        for text, answer in zip(texts, answers, strict=True):
            text, answer = bytes.fromhex(text), answer.rstrip("\n")
            tokens = [tuple(map(int, token.split(","))) for token in answer.split()]
            print(answer + "".join(rows_of(text, tokens, numbers)))


main()
