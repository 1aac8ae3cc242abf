#!/usr/bin/env python3
"""Texts to compare the readers on, each a line of lower-case hex.

    corpus.py SPELLINGS [--families A,B] [--seed N] [--count N] [--max-length N] [--pieces N] [--letters N]

SPELLINGS is tokenizer.rs of the original or the project's list of rows. Each family gives its
fixed texts and then `count` random ones; the same arguments give the same texts. The families
`lists`, `kinds`, `wild`, `bars`, `full`, `bracket_lists` and `string_lists` are different: their lines are
`HEX start,len,kind start,len,kind ..`, token lists over a text; `kinds`, `full` and `string_lists` are fixed
lists, whatever the count and length. They, `strings` and `examples` are not among the default families.
"""

import argparse
import itertools
import os
import random
import re
import string
import sys

sys.dont_write_bytecode = True
from spellings import TOKENS, read, rows_of

BLANKS = "\t\n\v\f\r "
PAIRS = ["()", "[]", "{}", "||", ("||", "||"), ("{:", ":}"), ("left[", "right]"), ("(:", ":)"), "(]", "{]", "[}", ("|:", ":|")]
PIECES = ["(", ")", "[", "]", "{", "}", "|", "||", ",", " ", "x", "1", "-", "/", "_", "^", "sin", "sqrt", "frac", "="]
REPEATED = PIECES + ["| ", "(|", "|(", "[(", "x^", "x_1^", "-|", "a/", "sin^", "sqrt ", "frac x", "[(a,b),(", "(a,", "{:", "text(", "|x", "[[a,", '"']
LETTERS = "a-/^_,|()[] "
LIMITS = [limit + step for limit in (127, 256, 500, 512, 1024, 2048, 4096) for step in range(-2, 3)]
# bars that fail, so that much is read again
UNITS = ["|(", "|sin ", "| |(", "|a(", "|[", "|| |(", "|x^", "sin |", "[(|", "-|", "(|,", "|root "]
TEXTS = os.path.join(os.path.dirname(os.path.abspath(__file__)), "bench", "texts.txt")
# ways to go deeper
NESTED = ["(", "|", "[(", "[(a,", "[(a,b),(", "|(a,b),(", "x^", "x_1^", "sqrt ", "frac x", "1/", "sin ", "sin^", "-", "sin_1^"]
# closers that hang on an attempt given back, on a Sep that is an argument, on cells and lines counted
BRACKETS = ["{(a|b,|c|,d)}", "((sqrt ,))", "[(|a,b)|", "a)(b", "[(|,a)]", "[(|)]", "[(|,|)]", "|(a,b),(c,d)|", "[(a,b),(c)]", "[(a|,|b)]"]
BRACKETS += ["{(|a,b),(c,d|)}", "|(a|,b)|", "[[|[(a,b)],(c|,d)]|]", "[([(|a,b)],c)|,d]", "|-|(a,|b)", "[(sqrt ,a)]", "((x^,))", "[(-|a,b|)]"]
# ways to open, and how many of one or another are as deep as can be
OPENERS = ["(", "[(", "|(", "sqrt (", "-(", "(a,", "[(a,", "{(|", "x^(", "[(a,b),("]
DEEPEST = [count + step for count in (43, 64, 85, 128) for step in (-1, 0, 1)]
COUNTS = [2, 3, 64, 126, 127, 128, 129, 255, 256, 257, 258, 512, 1024, 2048, 4096]

# document 01's 'Strings to try', in its order
STRINGS = ["", "1...", "\\", "text (a b)c", "text(", '"ab', "[[1,2],[3,4]]", "{(a,b),(c,d)}", "[(a,|,b),(c,|,d)]", "[(a)]", "[(a,b)]", "|x|", "x^", "(a"]
STRINGS += ["(" * 127 + "x", "(" * 128 + "x", ")" * 256, ")" * 257]
# its token lists, over one blank: an empty Space then a Space, and a Space of 1 then an empty one
STRING_LISTS = [" 0,0,23 0,1,23", " 0,1,23 1,0,23"]
# document 01's other texts; 127 matrices, each in the last cell of the one before it, in 256 groups, whose print has depth 894; and bars
# whose tree the memory of failed attempts changes
EXAMPLES = ["x^2/3", "a-b", "-b", "[(a," * 127 + "x" + ")]" * 127 + ")" * 256, "| " * 127 + "-|"]
NAMED = {"strings": STRINGS, "examples": EXAMPLES}


class Maker:
    def __init__(self, rng, rows, longest, pieces, letters):
        self.rng, self.longest, self.pieces, self.letters = rng, longest, pieces, letters
        self.rows = [spelling for spelling, _ in rows]
        self.of = {token: [s for s, t in rows if t == token] for token in TOKENS}
        self.good = read(TEXTS).splitlines()
        self.symbols = [s for s, t in rows if t.startswith("Symbol")]

    # small parts

    def pick(self, *choices):
        return self.rng.choice(choices)

    def often(self, part, parts=4):
        """True in `part` of `parts` cases."""
        return self.rng.randrange(parts) < part

    def some(self, letters, most):
        return "".join(self.rng.choices(letters, k=self.rng.randint(0, most)))

    def length(self):
        """Short lengths as often as long ones."""
        return int((self.longest + 1) ** self.rng.random())

    def filled(self, part, wanted=None):
        """Parts one after another, cut to a length."""
        wanted, text = self.length() if wanted is None else wanted, ""
        while len(text) < wanted:
            text += part()
        return text[:wanted]

    def blank(self):
        return self.some(BLANKS, 4) if self.often(1, 8) else self.pick("", "", " ")

    def number(self):
        return self.some(string.digits, 3) + self.pick("", ".", ".5", "..", "...") if self.often(1) else str(self.rng.randrange(100))

    def quotation(self):
        return '"' + self.some("ab1 ()|^\r\n", 5) + self.pick('"', '"', '"', "")

    def command(self):
        inside = self.some('ab1 "()[]{}|,', 6)
        return self.pick("text", "mbox") + self.blank() + self.pick("(", "[", "{", "", "left(") + inside + self.pick(")", "]", "}", "")

    # an expression by the grammar, with arguments left out now and then

    def atom(self):
        return self.pick(
            lambda: self.rng.choice(string.ascii_letters),
            self.number,
            lambda: self.rng.choice(self.symbols),
            lambda: self.pick(self.quotation, self.command, lambda: self.pick("?", ";", "#", ""))(),
        )()

    def simple(self, depth):
        if depth <= 0 or self.often(1, 2):
            return self.atom()
        inner = lambda: self.blank() + self.simple(depth - 1)
        return self.pick(
            lambda: self.bracketed(depth),
            lambda: self.bracketed(depth),
            lambda: self.matrix(depth - 1),
            lambda: self.rng.choice(self.of["Unary"]) + inner(),
            lambda: self.rng.choice(self.of["Binary"]) + inner() + inner(),
            lambda: self.rng.choice(self.of["Function"]) + inner(),
            lambda: self.rng.choice(self.of["Sign"]) + inner(),
        )()

    def bracketed(self, depth):
        left, right = self.rng.choice(PAIRS)
        if self.often(1):
            left = self.rng.choice(self.of["OpenBracket"] + self.of["OpenCloseBracket"])
            right = self.rng.choice(self.of["CloseBracket"] + [left])
        return left + self.expression(depth - 1) + (right if self.often(9, 10) else "")

    def scripts(self, depth):
        sub = "_" + self.blank() + self.simple(depth - 1) if self.often(1) else ""
        return sub + ("^" + self.blank() + self.simple(depth - 1) if self.often(1) else "")

    def scripted(self, depth):
        head = self.rng.choice(self.of["Sign"]) if self.often(1, 5) else ""
        if self.often(1, 6):
            head += self.rng.choice(self.of["Function"]) + self.scripts(depth) + self.blank()
        return head + self.simple(depth) + self.blank() + self.scripts(depth)

    def item(self, depth):
        over = "/" + self.blank() + self.scripted(depth) if self.often(1, 5) else ""
        return self.scripted(depth) + over + self.blank()

    def expression(self, depth):
        items = [self.item(depth) for _ in range(self.rng.randint(0, 3))]
        return self.pick("", "", ",", " ", "-", "=", "|").join(items)

    # matrices

    def rows_of(self, cells, left, right, row):
        """A matrix of its rows of cells."""
        return left + ",".join(row[0] + ",".join(cells_of_row) + row[1] for cells_of_row in cells) + right

    def matrix(self, depth):
        """A matrix with column lines here and there, damaged now and then."""
        count, columns = self.rng.randint(1, 4), self.rng.randint(1, 4)
        lines = [self.often(1, 5) for _ in range(columns)]
        cell = lambda line: self.blank() + ("|" if line else self.expression(depth - 1)) + self.blank()
        cells = [[cell(line) for line in lines] for _ in range(count)]
        if self.often(1, 6):
            self.rng.choice(cells).append(self.atom())
        if self.often(1, 6):
            self.rng.choice(cells)[0] = self.pick("", "|", "|_1", "||", "|,|")
        left, right = self.rng.choice(PAIRS)
        row = self.pick("()", "()", "[]", "[]", "(]", "{}", ("left(", "right)"), "||")
        text = self.rows_of(cells, left, right, row)
        return text if self.often(5, 6) else self.damaged(text)

    def damaged(self, text):
        """A few characters lost, put in or changed."""
        for _ in range(self.rng.randint(1, 3)):
            at = self.rng.randint(0, len(text))
            put = self.rng.choice(PIECES) if self.often(2, 3) else ""
            text = text[:at] + put + text[at + self.rng.randint(0, 1) :]
        return text

    # families: fixed texts, and one random text

    def spellings_fixed(self):
        yield from self.rows
        for s in self.rows:
            other = self.rng.choice(self.rows)
            for before, after in itertools.product(("", "a", "1", " ", "x ", other), ("", "z", ".", "\n", " y", other)):
                yield before + s + after
            yield s[:-1]
            yield s + s
            yield s + s[:-1] + "x"

    def spellings(self):
        between = lambda: self.pick("", "", "", self.blank(), self.rng.choice(string.ascii_letters), self.number())
        return self.filled(lambda: self.rng.choice(self.rows) + between())

    def blanks_fixed(self):
        for count in range(4):
            for run in itertools.product(BLANKS, repeat=count):
                yield from ("".join(run), "a" + "".join(run) + "b")
        # bytes that are no blanks, though near them or blank elsewhere
        for byte in (0, 7, 8, 14, 27, 28, 29, 30, 31, 33, 127):
            yield from (chr(byte), f" {chr(byte)} ", f"a{chr(byte)}b", f"\r{chr(byte)}\n")

    def blanks(self):
        return self.filled(lambda: self.some(BLANKS + "\r\n", 5) + self.pick("a", "1", "sin", "\\", "-", "\x00", "\x1f"))

    def numbers_fixed(self):
        for count in range(7):
            for text in itertools.product("1.", repeat=count):
                yield from ("".join(text), "x" + "".join(text) + "y")
        yield from ("12.34.56", "0.5", "-1.5", "1e5", "1,000.00", "1.a", ".a", "3.\r\n4", "1 .5", "1...2", "o.5", ":.5")

    def numbers(self):
        return self.filled(lambda: self.pick(self.number(), ".", "..", "...", "x", " ", "-", "o.", ":."))

    def quotes_fixed(self):
        for count in range(6):
            yield from ("".join(text) for text in itertools.product('" a\n', repeat=count))

    def quotes(self):
        return self.filled(lambda: self.pick(self.quotation(), '"', "a", " ", "\r\n", "(", "text("))

    def commands_fixed(self):
        closers = ["", ")", "]", "}", ")x", ")]}", " )", '")"']
        for name, blank in itertools.product(("text", "mbox", "atext", "textx", "sqrt"), ("", " ", "\r\n", "\t\v\f ")):
            for left, inside, right in itertools.product(("(", "[", "{", "", "|", "(:"), ("", "a b", "(a)", "[b{c", "text(d"), closers):
                yield name + blank + left + inside + right

    def commands(self):
        return self.filled(lambda: self.pick(self.command(), self.command(), self.atom(), self.blank(), "^"))

    def bytes_fixed(self):
        for first in range(128):
            yield chr(first)
        for first, second in itertools.product(range(128), repeat=2):
            yield chr(first) + chr(second)

    def bytes(self):
        return self.filled(lambda: chr(self.rng.randrange(128)))

    def soup_fixed(self):
        return ()

    def soup(self):
        kinds = [self.of[token] for token in TOKENS if self.of[token]]
        kinds += [list(string.ascii_letters), list(string.digits), PIECES, PIECES]
        return self.filled(lambda: self.rng.choice(self.rng.choice(kinds)) + self.blank())

    def matrices_fixed(self):
        for pair, row, count, columns in itertools.product(PAIRS, ("()", "[]"), range(1, 4), range(1, 5)):
            for lines in itertools.product((False, True), repeat=columns):
                cells = [["|" if line else f"{at}" for at, line in enumerate(lines)] for _ in range(count)]
                yield self.rows_of(cells, *pair, row)
        for pair, row in itertools.product(PAIRS, ("()", "[]", "{}", "(]", ("left(", "right)"), ("(", "right)"), "||")):
            for cells in (["a"], ["a", "b"], [""], ["", ""], ["a", "|_1"], ["|x|", "|"], ["(c,d)", "[e]"]):
                for count in (1, 2):
                    text = self.rows_of([cells] * count, *pair, row)
                    yield from (text, "x" + text + "^2", text[:-1], text + ")", text.replace(",", ", "), f"sqrt{text}/{text}")
            for ragged in ([["a"], ["b", "c"]], [["a", "b"], ["c"]], [["a", "b"], []]):
                yield self.rows_of(ragged, *pair, row)

    def matrices(self):
        return self.filled(lambda: self.matrix(2) + self.blank())

    def expressions_fixed(self):
        signs = ("-", "+-", "a-", "sum-", "x^-", "sqrt-", "sin-", "1/-", "(-", "=-", "!-", "?-", "quad-", ",-", "- -")
        for sign, after in itertools.product(signs, ("", "b", " b", "-b", "^2", "/c", ")", "|")):
            yield sign + after
        for left, sub, sup, over in itertools.product(("x", "sin", "-x", "f", "(x)", ""), ("", "_", "_1", "_-1"), ("", "^", "^2", "^sin x"), ("", "/", "/y_2", "/sin^2 y")):
            yield from (left + sub + sup + over, left + sub + sup + " z" + over, left + sup + sub)

    def expressions(self):
        text = self.filled(lambda: self.expression(4) + self.pick("", " ", ")", "]"))
        return text if self.often(3) else self.damaged(text)[: self.longest]

    def short_fixed(self):
        for count in range(1, self.pieces + 1):
            yield from ("".join(text) for text in itertools.product(PIECES, repeat=count))

    def short(self):
        return "".join(self.rng.choices(PIECES, k=self.pieces + 1 + self.rng.randrange(4)))

    def deep_fixed(self):
        for part, count, end in itertools.product(REPEATED, COUNTS, ("", "x", ")", "|", "-|", "]" * 64)):
            if len(part) * count + len(end) <= self.longest:
                yield part * count + end

    def deep(self):
        repeated = lambda: self.rng.choice(REPEATED) * int(300 ** self.rng.random())
        return self.filled(repeated)

    def all_fixed(self):
        """Every text of so many letters."""
        for count in range(self.letters + 1):
            yield from ("".join(text) for text in itertools.product(LETTERS, repeat=count))

    def all(self):
        return "".join(self.rng.choices(LETTERS, k=self.letters + 1 + self.rng.randrange(6)))

    def limits_fixed(self):
        return (self.of_length(length) for length in LIMITS for _ in range(4))

    def limits(self):
        return self.of_length(self.rng.choice(LIMITS))

    def of_length(self, length):
        part = self.pick(
            lambda: self.rng.choice(LETTERS),
            lambda: self.rng.choice(PIECES),
            lambda: self.expression(3),
            lambda: self.rng.choice(REPEATED) * self.rng.randint(1, 200),
            lambda: chr(self.rng.randrange(128)),
        )
        return self.filled(part, length)

    def answers_fixed(self):
        """The answers of the benchmark."""
        return self.good

    def answers(self):
        """Answers with something lost, doubled or put in another place."""
        text = self.rng.choice(self.good)
        for _ in range(self.rng.randint(0, 2)):
            other = self.rng.choice(self.good) if self.often(1) else text
            (start, end), (at, to) = self.span(other), self.span(text)
            text = text[:at] + other[start:end] + text[to:]
        return self.damaged(text)

    def span(self, text):
        return sorted(self.rng.randint(0, len(text)) for _ in range(2))

    def takes_fixed(self):
        """Texts with many takes."""
        starts, ends = ("", "-|(", "[(", "|", "{(|,"), ("", "),", ",", "-|", "|)]")
        for unit, start, end, count in itertools.product(UNITS, starts, ends, (5, 40, 126, 200)):
            yield start + unit * count + end

    def takes(self):
        units = "".join(self.rng.choices(UNITS, k=self.rng.randint(1, 3)))
        start, end = (self.pick("", "-|(", "[(", "-", "|", "((") for _ in range(2))
        return start + units * int(100 ** self.rng.random()) + self.pick("", "),", ",", "|") + end

    def brackets_fixed(self):
        """Bars over cells, and closers where it is as deep as can be."""
        yield from BRACKETS
        for pair, row in itertools.product(("{}", "[]", "||", "()"), ("()", "[]")):
            for cells in itertools.product(("a", "|", "a|b", "|c|", "-|", "[(|,d)]"), repeat=3):
                yield from (self.rows_of(rows, *pair, row) for rows in ([cells], [cells[:2], cells[1:]]))
        starts, ends = ("", "-", "[(", ")" * 256 + "=)-"), (")", "b)]", "|)", "a),")
        for start, unit, count, end in itertools.product(starts, OPENERS, DEEPEST, ends):
            text = start + unit * count + end * (count + 2)
            yield from [text] if len(text) <= self.longest else []

    def brackets(self):
        deep = self.rng.choice(OPENERS) * self.rng.randrange(140) if self.often(1, 8) else ""
        text = deep + self.grown(self.rng.randint(1, 5)) + (self.pick(")", ")]", "|)") * self.rng.randrange(140) if deep else "")
        return text if self.often(3) else self.damaged(text)

    def grown(self, depth):
        """Brackets in brackets, with some that are alone."""
        if depth <= 0:
            return self.pick("a", "a", "", "-", "|", "|", ",", "sqrt ", "1/", "x^")
        inner = lambda: self.grown(depth - 1)
        return self.pick(
            lambda: inner() + inner(),
            lambda: inner().join(self.pick("()", "[]", "{}", "||", ("||", "||"), "(]", ("|", ")"), ("(", ""))),
            lambda: self.rows_of(self.cells(inner), *self.rng.choice(PAIRS[:5]), self.pick("()", "()", "[]")),
        )()

    def cells(self, cell):
        """Rows of cells with a line here and there, a bar behind some, seldom of different lengths."""
        lines = [self.often(1) for _ in range(self.rng.randint(1, 3))]
        rows = [["|" if line else cell() + self.pick("", "", "|") for line in lines] for _ in range(self.rng.randint(1, 3))]
        return [row + ["a"] * self.often(1, 20) for row in rows]

    def nested_fixed(self):
        """As deep as can be, of one or two ways in turns."""
        for one, other in itertools.product(NESTED, ["", *NESTED]):
            for end in ("x", "a)]" * 130, "x" + ")" * 260, "b)]" * 127 + ")" * 260):
                yield (one + other) * 127 + end
        # the deepest trees: matrices, cells and fractions, and then wraps
        for one in ("[(", "1^[("):
            yield one * 127 + "/1,1)]" * 127 + ")" * 256

    def nested(self):
        unit = "".join(self.rng.choices(NESTED, k=self.rng.randint(1, 4)))
        end = self.pick("", "x", self.some(")],|", 300), self.pick(")]", "b)]", "),", ")") * self.rng.randrange(300))
        return unit * self.rng.randint(20, 200) + end


KINDS = dict(zip(PIECES, (20, 21, 20, 21, 20, 21, 22, 22, 3, 23, 6, 4, 16, 0, 2, 1, 17, 18, 19, 10)))


def pieces_of(text):
    """Start, length and kind of each piece of a text."""
    for piece in re.finditer("sin|sqrt|frac|[|][|]|.", text):
        yield piece.start(), len(piece[0]), KINDS.get(piece[0], 6)


def token_list(make):
    """A text of pieces as a token list, in which some kinds and spans are changed."""
    rng, text, tokens = make.rng, "", []
    some = lambda: "".join(rng.choices(PIECES, k=rng.randint(0, 3)))
    for _ in range(rng.randint(0, 4)):
        lines = [make.often(1) for _ in range(rng.randint(1, 3))]
        cells = [["|" if line else some() for line in lines] for _ in range(rng.randint(1, 3))]
        matrix = make.rows_of(cells, *rng.choice(PAIRS[:4]), make.pick("()", "[]"))
        text += make.pick(some(), matrix)
    changed = make.pick(0, 0.02, 0.2)
    for start, length, kind in pieces_of(text):
        if rng.random() < changed:
            kind = rng.randrange(24)
        if rng.random() < changed:
            start = rng.randint(0, len(text))
            length = rng.randint(0, min(3, len(text) - start))
        tokens.append(f"{start},{length},{kind}")
        if rng.random() < changed:
            tokens.append(f"{start},0,{rng.randrange(24)}")
    return " ".join([text.encode().hex(), *tokens])


def wild_list(make):
    """Any kinds and spans, empty and overlapping ones too, seldom with two Space tokens in a row."""
    rng, text = make.rng, make.some("()[]{}|,ab1- ", make.length())
    usual = [20, 20, 21, 21, 22, 22, 3, 3, 16, 6, 23, 1, 2, 0, 17, 18]
    kinds = rng.choices(make.pick(range(24), usual, rng.sample(range(24), 4)), k=make.length())
    tokens, long_space = [], False
    for kind in kinds:
        start = rng.randint(0, len(text))
        length = min(make.pick(0, 1, 1, 1, 2, rng.randint(0, 9)), len(text) - start)
        if kind == 23 and long_space and not make.often(1, 50):
            kind = 6
        long_space = kind == 23 and length > 0
        tokens.append(f"{start},{length},{kind}")
    return " ".join([text.encode().hex(), *tokens])


def kind_lists():
    """All lists of up to three tokens, all with one text."""
    for length in range(4):
        for kinds in itertools.product(range(24), repeat=length):
            yield " ".join(["7c", *(f"0,{int(kind != 23)},{kind}" for kind in kinds)])


def bar_list(make):
    """`- | ( F F .. F ) ,` where each F is a bar of its own text: nearly 5 n * n takes."""
    rng, count = make.rng, int(min(make.longest, 600) ** make.rng.random())
    text = "-|(),x" + "a" * count
    bars = [f"6,{rng.randint(1, count) if make.often(1, 40) else bar + 1},22" for bar in range(count)]
    start = make.pick("0,1,16 1,1,22 2,1,20", "0,1,16 1,1,22 2,1,20 2,1,20", "1,1,22 2,1,20", "2,1,20", "")
    end = make.pick("3,1,21 4,1,3", "3,1,21 4,1,3", "4,1,3", "3,1,21 3,1,21", "5,1,6", "")
    return " ".join(part for part in [text.encode().hex(), start, *bars, end] if part)


def bracket_list(make):
    """Brackets in brackets as a list. Those that look alike may have one span, bars an empty one; bars may be other tokens."""
    text, how, tokens = make.brackets()[: make.longest], make.pick("own", "own", "first", "empty"), []
    other = make.rng.randrange(23)
    bars = make.pick([22], [22], [22, 22, 22, other], [other])
    for start, length, kind in pieces_of(text):
        if how == "first":
            start = text.find(text[start : start + length])
        if how == "empty" and kind == 22:
            start, length = make.rng.randint(0, len(text)), 0
        if kind == 22:
            kind = make.rng.choice(bars)
        tokens.append(f"{start},{length},{kind}")
    return " ".join([text.encode().hex(), *tokens])


# what a list as long as can be repeats
FULL = ["(", ")", "|", "()", "[(", "|(", "(,", "(|", "a)", "a ", "),", "x^", "(a,"]


def full_lists():
    """Lists of 4,096 tokens and one less, one unit again and again, with and without a closer at the end."""
    for unit, count, end in itertools.product(FULL, (4095, 4096), ("", ")")):
        tokens = [f"{at},1,{KINDS.get(piece, 6)}" for at, piece in enumerate(unit)]
        closer = [f"{len(unit)},1,21"] * len(end)
        many = itertools.islice(itertools.cycle(tokens), count - len(end))
        yield " ".join([(unit + ")").encode().hex(), *many, *closer])


FAMILIES = "spellings blanks numbers quotes commands bytes soup matrices expressions short deep nested all limits answers takes brackets".split()
LISTS = {"lists": token_list, "wild": wild_list, "bars": bar_list, "bracket_lists": bracket_list}
FIXED_LISTS = {"kinds": kind_lists, "full": full_lists}


def main():
    parser = argparse.ArgumentParser(description=__doc__.splitlines()[0])
    parser.add_argument("spellings")
    parser.add_argument("--families", default=",".join(FAMILIES), help=f"default: %(default)s; also {', '.join(NAMED)}, string_lists, {', '.join([*FIXED_LISTS, *LISTS])}")
    parser.add_argument("--seed", default="1")
    parser.add_argument("--count", type=int, default=1000, help="random texts of each family (%(default)s)")
    parser.add_argument("--max-length", type=int, default=200, help="bytes of a text at most (%(default)s)")
    parser.add_argument("--pieces", type=int, default=3, help="short: all texts of so many pieces (%(default)s)")
    parser.add_argument("--letters", type=int, default=4, help="all: all texts of so many letters (%(default)s)")
    args = parser.parse_args()
    rows, seen = rows_of(args.spellings), set()
    for family in args.families.split(","):
        rng = random.Random(f"{args.seed} {family}")
        make = Maker(rng, rows, args.max_length, args.pieces, args.letters)
        if family in NAMED:
            print(*(text.encode().hex() for text in NAMED[family]), sep="\n")
            continue
        if family == "string_lists":
            print(*(" ".encode().hex() + tokens for tokens in STRING_LISTS), sep="\n")
            continue
        if family in FIXED_LISTS:
            print(*FIXED_LISTS[family](), sep="\n")
            continue
        if family in LISTS:
            for _ in range(args.count):
                print(LISTS[family](make))
            continue
        if family not in FAMILIES:
            sys.exit(f"no family {family}")
        randoms = (getattr(make, family)() for _ in range(args.count))
        for text in itertools.chain(getattr(make, f"{family}_fixed")(), randoms):
            text = text[: args.max_length]
            if text not in seen:
                seen.add(text)
                print(text.encode("ascii").hex())


main()
