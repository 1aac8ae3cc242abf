#!/usr/bin/env python3
"""The oracle's printed trees of token lists as the words of docs/LAYOUT.md.

    oracle list < lists | tree_words.py > answers

Each answer becomes a line of takes and items, a line of the tree's words without the zeros behind them, and a line `--`; `panic`,
which is the Rust's answer to a Space directly after a Space of length 1 or more, becomes `refused=6`.
"""
import sys

NAMES = "missing number text ident operator sign space symbol signed ssigned unary sfunc binary simple func group matrix cell".split()
SCRIPTS = ["none", "sub", "super", "subsuper"]


def read_nodes(lines, at, depth):
    """The nodes at a depth, each with its fields and the nodes below it, and the place behind them."""
    nodes = []
    while at < len(lines) and lines[at]["depth"] == str(depth):
        below, end = read_nodes(lines, at + 1, depth + 1)
        nodes.append((lines[at], below))
        at = end
    return nodes, at


def node_words(node):
    fields, below = node
    name = fields["node"]
    get = lambda field: int(fields.get(field, 0))
    held = get("class") or get("items") or get("cells")
    if "script" in fields:
        held = SCRIPTS.index(fields["script"])
    words = [NAMES.index(name), get("at"), get("len"), held, get("rat"), get("rlen")]
    if name in ("group", "cell"):
        rest = item_words(below)
        if name == "cell":
            words[4] = len(rest)
        return words + rest
    if name == "matrix":
        lines = [] if fields["lines"] == "none" else [int(n) for n in fields["lines"].split(",")]
        words += [get("cols"), len(lines)]
        return words + [w for cell in below for w in node_words(cell)] + lines
    return words + [w for child in below for w in node_words(child)]


def item_words(nodes):
    words = []
    for node in nodes:
        if node[0]["node"] == "frac":
            words += [1] + [w for part in node[1] for w in node_words(part)]
        else:
            words += [0] + node_words(node)
    return words


def answer(block):
    if block == "panic\n":
        return "refused=6\n--\n"
    lines = [dict(field.split("=") for field in line.split(" ")) for line in block.splitlines()]
    nodes, end = read_nodes(lines, 1, 0)
    assert end == len(lines), block
    words = item_words(nodes)
    while words and words[-1] == 0:
        words.pop()
    return f"takes={lines[0]['takes']} items={lines[0]['items']}\n{''.join(f'{w} ' for w in words)}\n--\n"


def main():
    sys.setrecursionlimit(10000)
    for block in sys.stdin.read().split("--\n")[:-1]:
        sys.stdout.write(answer(block))


main()
