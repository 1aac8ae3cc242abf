#!/usr/bin/env python3
"""Texts for the rules of MathML, besides those of tools/corpus.py, each a line of lower-case hex.

    texts.py SPELLINGS [--seed N] [--count N] [--max-length N]

SPELLINGS as for corpus.py. First fixed texts: each spelling in each place that a rule names, every byte below 32
in each place that can hold one, lines of matrices at every boundary, chains of the commands whose arguments are
exchanged, nests as deep as can be. Then `count` random ones, most of them without what the rules refuse.
"""

import argparse
import itertools
import os
import random
import string
import sys

sys.dont_write_bytecode = True
sys.path.insert(0, os.path.join(os.path.dirname(os.path.abspath(__file__)), ".."))
from spellings import TOKENS, rows_of

EXCHANGED = ["root", "stackrel", "overset", "underset"]
REFUSED = "bb mathbf sf mathsf bbb mathbb cc mathcal tt mathtt fr mathfrak it mathit bbit bbsf sfit bbsfit bbcc bbfr color id class".split()
PAIRS = ["()", "{}", "[]", "(]", "{)", "[)", ("left(", "right)"), ("left[", "right]"), ("{:", ":}"), ("(:", ":)"), ("<<", ">>"), ("|:", ":|"), "||", ("||", "||")]
PAIRS += [("(", ""), ("{", ""), ("", ")"), ("(", ":}"), ("{:", ")"), ("|__", "__|"), ("lceiling", "rceiling")]
# where an argument stands: %s is in its place
PLACES = ["%s", "x^%s", "x_%s", "x_%s^2", "x_1^%s", "%s/b", "a/%s", "%s^2/b", "-%s", "-%s/b", "x^-%s", "sin%s", "sin^%s x", "f%s", "x^f%s", "x^sin%s", "sqrt%s", "text%s", "mbox %s"]
PLACES += ["hat%s", "ubrace%s^2", "abs%s", "frac%s c", "frac c%s", "root%s c", "root c%s", "underset c%s", "(%s)", "[(%s,b)]", "sqrt sqrt%s", "text sqrt%s", "sqrt text%s", "text{%s}"]
# where a byte stands, in a token, in a Space that is an item or in one that is none
BYTES = ["%s", "a%sb", "%sa", "a%s", '"%s"', '"a%sb"', '"a"%s"b"', "text(%s)", "text%s(a)", "text[a%sb", "sqrt%sx", "-%sx", "x%s^2", "x^%s2", "a%s/b", "a/%sb", "root%s2 x", "root 2%sx", "sin%sx"]
BYTES += ["(%sa)", "(a%s)", "(a%sb)", "|%sa|", "|a%s|", "|a%sb|", "[(%sa,b)]", "[(a%s,b)]", "[(a,%sb)]", "[(a,b%s)]", "[(a,b)%s,(c,d)]", "[%s(a,b)]", "[(a%sc,b)]", "[(a,b)]%s", "a %s b", "a%s%%b", "[(a,%s|,b)]", "a)%sb"]
NESTS = ["(", "[(", "[(a,", "1/(", "x^(", "sqrt ", "root ", "f(", "f^", "-", "1^[(", "text(", "x_f ", "hat ", "{:", "|", "[(a,b),(", "overset a", "sin "]
ENDS = ["", "x", "f", ")" * 256, "/1,1)]" * 127 + ")" * 256, ")]" * 127, "b)]" * 127 + ")" * 256]


def fixed(rows):
    for spelling, place in itertools.product(rows, PLACES):
        yield place % spelling
        yield place % (" " + spelling)
    for (left, right), inside, place in itertools.product(PAIRS, ("a", "", "a+b", "(c)", ",", "a<b&c>"), PLACES):
        yield place % (left + inside + right)
        yield place % (" " + left + inside + right)
    for byte, place in itertools.product([*range(33), 127], BYTES):
        yield place % chr(byte)
        yield place % (" " + chr(byte))
    for cols, count, pair in itertools.product(range(1, 6), (1, 2), ("[]", "||", ("{", ":}"))):
        for lines in itertools.product((0, 1, 2), repeat=cols + 1):
            if sum(lines) <= 3 and cols + sum(lines) <= 7:
                row = "".join("|," * lines[at] + f"{at}," for at in range(cols)) + "|," * lines[cols]
                yield pair[0] + ",".join([f"({row[:-1]})"] * count) + pair[1]
    for name, count, end in itertools.product(EXCHANGED, (1, 2, 3, 30, 254, 255, 256, 257, 260), ("", "x", "x y", "(x)(y)", " x" * 300)):
        yield f"{name} " * count + end
        yield f"{name}(a)" * count + end
    for one, count, end in itertools.product(NESTS, (3, 64, 127, 128, 260), ENDS):
        yield one * count + end
    for one, other, end in itertools.product(NESTS, NESTS, ENDS):
        yield (one + other) * 127 + end
    # the longest MathML for its bytes
    yield "f" + "(" * 127 + "f" * 3968


class Maker:
    """Random texts by the grammar."""

    def __init__(self, rng, rows, longest):
        self.rng, self.longest = rng, longest
        self.of = {token: [s for s, t in rows if t == token] for token in TOKENS}
        self.symbols = [s for s, t in rows if t.startswith("Symbol")]
        self.refusals = False

    def often(self, part, parts):
        return self.rng.randrange(parts) < part

    def pick(self, *choices):
        return self.rng.choice(choices)

    def word(self, token):
        """A spelling; one that is refused only where that is wanted."""
        words = [word for word in self.of[token] if self.refusals or word not in REFUSED]
        return self.rng.choice(words)

    def blank(self):
        if self.often(1, 3):
            return ""
        return self.rng.choice("\v\f\v ") if self.refusals and self.often(1, 9) else self.pick("", " ", " ", "  ", "\t", "\r\n")

    def letters(self):
        letters = "ab1 <>&|,;?\t\r\n(" + ("\x00\x01\x1f\x0b" if self.refusals else "")
        return "".join(self.rng.choices(letters, k=self.rng.randint(0, 4)))

    def atom(self):
        return self.pick(
            lambda: self.rng.choice(string.ascii_letters),
            lambda: self.pick("1", "2.5", ".5", "10"),
            lambda: self.rng.choice(self.symbols),
            lambda: self.pick("?", ";", "&", "#", "\x7f", '"' + self.letters().replace('"', "") + '"'),
            lambda: self.pick("text", "mbox") + self.blank() + self.letters().join(self.pick("()", "[]", "{}", ("(", ""))),
            lambda: self.pick("\x00", "\x1f", "\x08", "?") if self.refusals else "x",
        )()

    def simple(self, depth):
        if depth <= 0 or self.often(2, 5):
            return self.atom()
        inner = lambda: self.blank() + (self.simple(depth - 1) if self.often(29, 30) else "")
        return self.pick(
            lambda: self.bracketed(depth),
            lambda: self.bracketed(depth),
            lambda: self.matrix(depth - 1),
            lambda: self.word("Unary") + inner(),
            lambda: self.word("Unary") + inner(),
            lambda: self.word("Binary") + inner() + inner(),
            lambda: self.word("Function") + inner(),
            lambda: self.word("Sign") + inner(),
        )()

    def bracketed(self, depth):
        left, right = self.rng.choice(PAIRS) if self.often(1, 2) else self.pick("()", "{}", "[]")
        return left + self.expression(depth - 1) + right

    def matrix(self, depth):
        cols, count = self.rng.randint(1, 4), self.rng.randint(1, 3)
        lines = [self.often(1, 4) for _ in range(cols + 1)]
        if not self.refusals:
            lines[0] = lines[-1] = False
        cell = lambda: self.blank() + self.expression(depth - 1)
        rows = []
        for _ in range(count):
            row = [part for at in range(cols) for part in (["|"] * lines[at] + [cell()])] + ["|"] * lines[cols]
            rows.append(row + ["|"] * (self.refusals and lines[cols] and self.often(1, 2)))
        left, right = self.pick("[]", "()", "||", ("{", ":}"), ("left[", "right]"), ("{:", ":}"))
        open_row, close_row = self.pick("()", "[]")
        return left + ",".join(open_row + ",".join(row) + close_row for row in rows) + right

    def scripts(self, depth):
        sub = "_" + self.blank() + self.simple(depth - 1) if self.often(1, 5) else ""
        return sub + ("^" + self.blank() + self.simple(depth - 1) if self.often(1, 5) else "")

    def item(self, depth):
        part = lambda: self.pick("", "", "", self.word("Sign")) + self.pick("", "", "", self.word("Function") + self.scripts(depth)) + self.simple(depth) + self.scripts(depth)
        return part() + (self.blank() + "/" + self.blank() + part() if self.often(1, 4) else "")

    def expression(self, depth):
        return self.pick(" ", "", ",", "+", "-", "=").join(self.item(depth) for _ in range(self.rng.randint(0, 3)))

    def text(self):
        self.refusals = self.often(1, 6)
        wanted, text = int((self.longest + 1) ** self.rng.random()), ""
        while len(text) < wanted:
            text += self.expression(self.rng.randint(1, 5)) + self.pick("", " ", " ", ")")
        return text[: self.longest if self.often(3, 4) else wanted]


def main():
    parser = argparse.ArgumentParser(description=__doc__.splitlines()[0])
    parser.add_argument("spellings")
    parser.add_argument("--seed", default="1")
    parser.add_argument("--count", type=int, default=1000, help="random texts (%(default)s)")
    parser.add_argument("--max-length", type=int, default=200, help="bytes of a random text at most (%(default)s)")
    args = parser.parse_args()
    rows = rows_of(args.spellings)
    make = Maker(random.Random(f"{args.seed} mathml"), rows, args.max_length)
    randoms = (make.text() for _ in range(args.count))
    seen = set()
    for text in itertools.chain(fixed([spelling for spelling, _ in rows]), randoms):
        text = text[:4096]
        if text not in seen:
            seen.add(text)
            print(text.encode("ascii").hex())


main()
