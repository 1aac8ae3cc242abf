#!/usr/bin/env python3
"""Compare the definition of the reading with the Rust original, by computation in the prover.

    compare_definition.py ORACLE [--lists N] [--texts N] [--seed S] [--keep DIR]

ORACLE is the program that tools/oracle/build.sh makes. Random token lists (all kinds, arbitrary spans) and random texts are read by
the Rust; tree, takes and closers of each are written as tables in a crate of a temporary repository, and `rt check` computes that the
definition gives the same. Not part of the gate: some hundreds of short lists take minutes.
"""
import argparse
import os
import random
import shutil
import subprocess
import sys
import tempfile

ROOT = os.path.dirname(os.path.dirname(os.path.abspath(__file__)))
TOKENS = ["Frac", "Super", "Sub", "Sep", "Number", "Text", "Ident", "Operator"]
CLASSES = ["Glyph", "Name", "Joining", "JoiningName", "Leading", "LeadingName", "Space", "Separator"]
LAST = ["Sign", "Function", "Unary", "Binary", "OpenBracket", "CloseBracket", "OpenCloseBracket", "Space"]
PER_TABLE = 20


def token(kind):
    if kind < 8:
        return f"token.{TOKENS[kind]}"
    if kind < 16:
        return f"(token.Symbol class.{CLASSES[kind - 8]})"
    return f"token.{LAST[kind - 16]}"


def node_head(fields):
    """The head of a printed line, as a term of the tree type."""
    get = dict(f.split("=", 1) for f in fields)
    kind = get["node"]
    span = f"(at {get.get('at')} {get.get('len')})"
    right = f"(at {get.get('rat')} {get.get('rlen')})"
    if kind in ("number", "text", "ident", "operator", "sign", "space"):
        return f"(Head.atom Atom.{kind} {span})"
    if kind == "symbol":
        return f"(Head.atom (Atom.symbol class.{CLASSES[int(get['class'])]}) {span})"
    if kind in ("signed", "ssigned", "unary", "sfunc", "binary"):
        return f"(Head.prefix Prefix.{kind} {span})"
    if kind == "simple":
        return f"(Head.simple Script.{get['script']})"
    if kind == "func":
        return f"(Head.func {span} Script.{get['script']})"
    if kind == "group":
        return f"(Head.group {span} {right})"
    if kind == "matrix":
        lines = [] if get["lines"] == "none" else get["lines"].split(",")
        return f"(Head.matrix {span} {right} {get['cols']} ({''.join(l + ' ∷ ' for l in lines)}[]))"
    return f"Head.{kind}"


def tree_term(lines):
    """The nodes of printed lines, by their depths."""
    rows = [line.split() for line in lines]
    depths = [int(r[0].split("=")[1]) for r in rows]

    def nodes(i, depth):
        out = []
        while i < len(rows) and depths[i] == depth:
            below, j = nodes(i + 1, depth + 1)
            out.append(f"node {node_head(rows[i][1:])} ({below})")
            i = j
        return "".join(o + " ▸ " for o in out) + "end", i

    term, end = nodes(0, 0)
    assert end == len(rows)
    return term


def random_text(rng):
    parts = ["(", ")", "[", "]", "{", "}", "|", "||", ",", "a", "b", "1", "^", "_", "/", "-", "+", " ", "sin", "sqrt", "root", "f",
             "left(", "right)", "alpha", "=", "sum", "\"q\"", ".5", "{:", ":}", "text(a)", "[[", "]]", "),("]
    return "".join(rng.choice(parts) for _ in range(rng.randint(0, 9)))


def random_list(rng):
    text = "".join(rng.choice("()[]{}|,ab1-") for _ in range(rng.randint(1, 12)))
    kinds = [rng.randrange(24) for _ in range(4)] + [20, 20, 21, 21, 22, 22, 3, 3, 16, 6, 23, 1, 2, 0]
    out, long_space = [], False
    for _ in range(rng.randint(0, 11)):
        kind = rng.choice(kinds)
        start = rng.randint(0, len(text))
        length = rng.choice([0, 1, 1, 1, 2])
        if start + length > len(text) or (kind == 23 and long_space):
            continue
        out.append((start, length, kind))
        long_space = kind == 23 and length > 0
    return text, out


def crates_below(name):
    """A crate and those that it depends on, with what each depends on, by crates.txt."""
    with open(os.path.join(ROOT, "crates.txt")) as f:
        lines = [line.split("#")[0].split(":") for line in f if ":" in line.split("#")[0]]
    deps = {crate.strip(): below.split() for crate, below in lines}
    return {crate: deps[crate] for crate in deps[name] + [name]}


def main():
    args = argparse.ArgumentParser(description=__doc__, formatter_class=argparse.RawDescriptionHelpFormatter)
    args.add_argument("oracle")
    args.add_argument("--lists", type=int, default=300)
    args.add_argument("--texts", type=int, default=100)
    args.add_argument("--seed", type=int, default=1)
    args.add_argument("--keep", help="write the temporary repository here and keep it")
    opts = args.parse_args()
    rng = random.Random(opts.seed)
    texts = [random_text(rng) for _ in range(opts.texts)]
    lists = [random_list(rng) for _ in range(opts.lists)]

    def ask(mode, lines):
        out = subprocess.run([opts.oracle, mode], input="\n".join(lines) + "\n", capture_output=True, text=True, check=True).stdout
        return out.split("\n--\n" if mode in ("tree", "list") else "\n")[:-1]

    cases = []
    shown = [t.encode().hex() for t in texts]
    for text, answer, closers, toks in zip(texts, ask("tree", shown), ask("closers", shown), ask("tokens", shown)):
        cases.append((text, None, [tuple(map(int, t.split(","))) for t in toks.split()], answer, closers))
    shown = [t.encode().hex() + "".join(" %d,%d,%d" % x for x in l) for t, l in lists]
    for (text, toks), answer, closers in zip(lists, ask("list", shown), ask("list_closers", shown)):
        cases.append((text, toks, toks, answer, closers))

    repo = opts.keep or tempfile.mkdtemp()
    os.makedirs(repo, exist_ok=True)
    below = crates_below("reading")
    for crate in below:
        there = os.path.join(repo, "crates", crate)
        shutil.copytree(os.path.join(ROOT, "crates", crate), there, ignore=shutil.ignore_patterns("out"), dirs_exist_ok=True)
    with open(os.path.join(repo, "crates.txt"), "w") as f:
        f.writelines(f"{crate}: {' '.join(deps)}\n" for crate, deps in below.items())
        f.write(f"compare: {' '.join(below)}\n")
    base = os.path.join(repo, "crates", "compare")
    os.makedirs(os.path.join(base, "src"), exist_ok=True)
    os.makedirs(os.path.join(base, "proofs"), exist_ok=True)
    with open(os.path.join(base, "src", "lib.rt"), "w") as f:
        f.write("// Cases of the Rust original.\n#![tactic(auto)]\n")
    # the definitions that a computed reading opens: those of the theorem on the starred strings
    with open(os.path.join(ROOT, "crates", "reading", "proofs", "Starred.antt"), encoding="utf-8") as f:
        starred = f.read()
    words = starred.split("starred-strings :")[1].split("unfolding")[1].split("starred-strings =")[0].split()
    opened = " ".join(w for w in words if w not in ("read", "said", "starred"))
    uses = "\n".join(l for l in starred.split("\n") if l.startswith("use ") and "TheVariants.{" not in l)
    uses = uses.replace("read_text,", "read_text, read_tokens, closers_of,")
    mods = []
    for n in range(0, len(cases), PER_TABLE):
        name = f"Cases{n // PER_TABLE}"
        mods.append(f"pub mod {name}\n")
        left, right, pairs, places = [], [], [], []
        for text, toks, real, answer, closers in cases[n:n + PER_TABLE]:
            lines = answer.split("\n")
            first = dict(f.split("=") for f in lines[0].split())
            data = "".join(f"{b} ∷ " for b in text.encode()) + "[]"
            lex = "".join(f"lexeme {s} {l} {token(k)} ∷ " for s, l, k in real) + "[]"
            left.append(f"read_tokens ({data}) ({lex})" if toks is not None else f"read_text ({data})")
            right.append(f"record {{ tree = {tree_term(lines[1:])}; takes = {first['takes']} }}")
            pairs.append(f"closers_of ({data}) ({lex})")
            places.append("(" + "".join(f"{place} ∷ " for place in closers.split()) + "[])")
        with open(os.path.join(base, "proofs", name + ".antt"), "w", encoding="utf-8") as f:
            f.write(uses + "\nuse Rattle.tokens.specs.declared.token.Token.TheVariants as token\n")
            f.write("\nabbrev at : ℕ → ℕ → Span\nat s n = record { start = s; len = n }\n\n")
            f.write("cases : ◌≡◌ {A = List Reading}\n    (" + " ∷\n    ".join(left) + " ∷ [])\n    (")
            f.write(" ∷\n    ".join(right) + " ∷ [])\nunfolding " + opened + "\ncases = refl\n\n")
            f.write("closers : ◌≡◌ {A = List (List ℕ)}\n    (" + " ∷\n    ".join(pairs) + " ∷ [])\n    (")
            f.write(" ∷\n    ".join(places) + " ∷ [])\nunfolding closers_of " + opened + "\nclosers = refl\n")
    with open(os.path.join(base, "proofs", "Lib.antt"), "w") as f:
        f.write("".join(mods))
    ran = subprocess.run(["rt", "check"], cwd=base, stdout=subprocess.PIPE, stderr=subprocess.STDOUT, text=True)
    errors = [l for l in ran.stdout.split("\n") if "error" in l]
    print("\n".join(l[:400] for l in errors[:10]))
    print(f"{len(lists)} token lists and {len(texts)} texts, seed {opts.seed}: {'all alike' if ran.returncode == 0 else 'DIFFERENT'}")
    if not opts.keep:
        shutil.rmtree(repo)
    sys.exit(ran.returncode)


if __name__ == "__main__":
    main()
