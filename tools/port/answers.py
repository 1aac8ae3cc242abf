#!/usr/bin/env python3
"""Turns a function's Proof.antt of the older form (goals of a `Tie`) into Invariants.antt and Answers.antt.

usage: tools/port/answers.py NAMES CRATE [FUNCTION..]

NAMES is the names.json that `rt check --generated DIR --old-names` writes for the crate, which gives each goal and step its new name. An
answer that the check finds by itself (`search rules`, `omega arith`) is left out. It proves nothing: `rt check` decides.
"""

import glob
import json
import os
import re
import sys

W = r"[^\s(){}.;,@\"«»\[\]\\]+"
TRIVIAL = re.compile(r"(search rules|omega arith|refl|tt|cc|simp length-set \(omega arith\)|omega \(arith\))")
DROPPED = re.compile(r"\.(Statement|Tie|Reads|Lts|Met|Code)\b")


def norm(name):
    return name.replace("_", "-")


def groups(text):
    """The file's items: comment lines with what follows them, imports, and declarations with their equations."""
    out, cur, comment = [], None, []
    for line in text.split("\n"):
        if line.startswith("--"):
            if cur:
                out.append(cur)
                cur = None
            comment.append(line)
            continue
        head = re.match(r"((?:abbrev |unfoldable |pub )*)(%s(?: %s)*) : (.*)" % (W, W), line)
        if line.startswith("use ") or line.startswith("pub use "):
            if cur:
                out.append(cur)
            cur = ["use", comment, [line]]
            comment = []
        elif line.startswith("module ") or (head and line[:1].strip()) or re.match(r"(data|record|pub data|pub record|abbrev pub record) ", line):
            if cur:
                out.append(cur)
            cur = ["item", comment, [line]]
            comment = []
        elif cur is not None:
            cur[2].append(line)
        elif line.strip():
            cur = ["item", comment, [line]]
            comment = []
    if cur:
        out.append(cur)
    # an equation behind a comment belongs to the signature before it
    k = 1
    while k < len(out):
        before, g = out[k - 1], out[k]
        sig = before[0] == "item" and re.match(r"(?:abbrev |unfoldable |pub )*(%s) : " % W, before[2][0])
        if sig and g[0] == "item" and re.match(re.escape(sig[1]) + r"(\s|$)", g[2][0]) and " : " not in g[2][0].split("=")[0]:
            while before[2] and not before[2][-1].strip():
                before[2].pop()
            before[1] += g[1]
            before[2] += g[2]
            del out[k]
        else:
            k += 1
    for g in out:
        while g[2] and not g[2][-1].strip():
            g[2].pop()
    return out


def labels():
    """The labels of each function's clauses, by its crate and name."""
    out = {}
    for path in glob.glob("crates/*/src/**/*.rt", recursive=True):
        crate, fn = path.split("/")[1], None
        for line in open(path, encoding="utf-8"):
            m = re.match(r"\s*(?:pub(?:\(\w+\))? )?(?:unsafe )?(?:extern \"C\" )?fn (\w+)", line)
            if m:
                fn = out.setdefault((crate, m[1]), {"requires": [], "ensures": []})
            m = re.match(r"\s*(requires|ensures) (\w+) \{", line)
            if m and fn is not None:
                fn[m[1]].append(m[2])
    return out


LABELS = labels()


def labelled(parts, kind, names):
    """The path with a clause's position turned into its label; the positions of n clauses are 0, 1.0, 1.1.0 and so on."""
    if len(names) < 2 or not parts or parts[0] not in ("0", "1"):
        return parts
    k = 0
    while k < len(names) - 1 and k < len(parts) and parts[k] == "1":
        k += 1
    if k == len(names) - 1:
        return [names[k]] + parts[k:]
    if k < len(parts) and parts[k] == "0":
        return [names[k]] + parts[k + 1 :]
    return parts


def pair(term):
    """The two parts of a term that ends in a pair, and what stands before it; else None."""
    t = term.rstrip()
    if not t.endswith(")"):
        return None
    depth, k = 0, len(t) - 1
    while k >= 0:
        depth += {")": 1, "]": 1, "}": 1, "(": -1, "[": -1, "{": -1}.get(t[k], 0)
        if depth == 0:
            break
        k -= 1
    inside, depth, cuts = t[k + 1 : -1], 0, []
    for i, ch in enumerate(inside):
        depth += {"(": 1, "[": 1, "{": 1, ")": -1, "]": -1, "}": -1}.get(ch, 0)
        if ch == "," and depth == 0:
            cuts.append(i)
    if len(cuts) != 1:
        within = pair(inside) if not cuts and re.match(r"\s*let\b", inside) else None
        return within and (t[: k + 1] + within[0], within[1], within[2], within[3] + ")")
    return t[:k], inside[: cuts[0]].strip(), inside[cuts[0] + 1 :].strip(), ""


def as_record(term, names):
    """A tuple of as many parts as there are labels, written as a record of them."""
    if len(names) < 2:
        return term
    front, parts, rest, back = None, [], term, ""
    while len(parts) < len(names) - 1:
        it = pair(rest)
        if not it or (parts and it[0].strip()):
            return term
        if front is None:
            front, back = it[0], it[3]
        parts.append(it[1])
        rest = it[2]
    parts.append(rest)
    return f"{front}record {{ " + "; ".join(f"{n} = {p}" for n, p in zip(names, parts)) + " }" + back


class Function:
    def __init__(self, of, name=None, cycle=False):
        self.of, self.name, self.cycle = of, name, cycle
        self.goals = {}
        for k, (old, new) in enumerate(of["needs"]):
            at = of["asked_at"][k][0] if k < len(of["asked_at"]) else None
            self.goals.setdefault(norm(old), (new, at))
        self.places = {p[0]: (k, p) for k, p in enumerate(of["places"])}
        self.left = []

    def goal(self, name):
        n = norm(name)
        if n in self.goals:
            return self.goals[n]
        n = re.sub(r"^overflow-", "", n)
        return self.goals.get(n)

    def step(self, at, befores, name):
        """The place of the step that the old path named."""
        chain, p = [], at
        while p:
            k, place = self.places[p]
            chain.append((k, place))
            p = place[1]
        want = norm(name)
        bare = re.sub(r"\d+$", "", want)
        alike = lambda it: norm(it) == want
        near = lambda it: re.sub(r"\d+$", "", norm(it)) == bare
        if befores < len(chain) and alike(chain[befores][1][2][0]):
            return chain[befores]
        for test in (alike, near):
            if befores < len(chain) and test(chain[befores][1][2][0]):
                return chain[befores]
            for it in chain:
                if test(it[1][2][0]):
                    return it
        return None

    def path(self, parts, at):
        """The new path of the old one `c.parts`."""
        n = 0
        while n < len(parts) and parts[n] == "before":
            n += 1
        rest = parts[n:]
        if not rest:
            return None
        rest[0] = re.sub("_lem$", "", rest[0])
        if rest[0] == "requires" and self.cycle:
            if rest[1:2] == ["0"]:
                return ["decreases"] + rest[2:]
            if rest[1:2] == ["1"]:
                rest = rest[:1] + rest[2:]
        if rest[0] == "requires":
            return rest[:1] + labelled(rest[1:], "requires", LABELS.get(self.name, {}).get("requires", []))
        if rest[0] in ("args", "ranges", "well-formed", "well_formed"):
            return rest
        found = at and self.step(at, n, rest[0])
        if not found:
            self.left.append(".".join(parts))
            return rest
        k, place = found
        if norm(rest[0]).startswith("enum-told"):
            for at2, arm in enumerate(self.of["arms"]):
                if arm and any(norm(it[1]) == norm(rest[0]) and it[2] and rest[1 : 1 + len(it[2])] == it[2] for it in arm[2]):
                    it = next(it for it in arm[2] if norm(it[1]) == norm(rest[0]) and it[2] and rest[1 : 1 + len(it[2])] == it[2])
                    return [arm[0], it[0]] + rest[1 + len(it[2]) :]
        arm = self.of["arms"][k] if k < len(self.of["arms"]) else None
        new = place[2][1]
        tail = rest[1:]
        if arm:
            for it in arm[2]:
                if norm(it[1]) == norm(rest[0]) and it[2] and tail[: len(it[2])] == it[2]:
                    return [arm[0], it[0]] + tail[len(it[2]) :]
            new = arm[0] if norm(place[2][0]).startswith("match") else new
        if new == "in_default" and tail[:1] == ["rest"]:
            tail = ["in_default-own"] + tail
        if tail:
            fields = dict((a, b) for a, b in place[4])
            if tail[0] in fields:
                tail = [fields[tail[0]]] + tail[1:]
            elif fields and tail[0] in ("true", "false") and tail[0] + "-raw" in fields.values():
                tail = [tail[0] + "-raw"] + tail[1:]
        if tail and tail[0] == "ok" and place[3]:
            tail = ["type_inv"] + tail[1:]
        if tail and tail[0] == "ensures" and place[3]:
            callee = place[3].split("::")
            tail = tail[:1] + labelled(tail[1:], "ensures", LABELS.get((callee[0], callee[-1]), {}).get("ensures", []))
        if len(tail) > 1 and tail[0] in ("new", "auto") and place[3] and tail[1] in ("0", "1"):
            k, params = 1, self.of["params"].get(place[3], [])
            while k < len(tail) and tail[k] == "1":
                k += 1
            if k < len(tail) and tail[k] == "0" and k - 1 < len(params):
                tail = [tail[0], params[k - 1]] + tail[k + 1 :]
        return [new] + tail

    def shaped(self, old, rhs):
        """The answer to a goal with several clauses, as a record."""
        m = re.match(r"(.*?)-requires(-\d+)?$", norm(old))
        if m:
            names = next((LABELS.get((c.split("::")[0], c.split("::")[-1]), {}).get("requires", []) for c in self.of["params"] if norm(c.split("::")[-1]) == m[1]), [])
            if self.cycle and any(norm(c.split("::")[-1]) == m[1] and c in self.cycle for c in self.of["params"]):
                it = pair(rhs)
                return f"{it[0]}({it[1]}, {as_record(it[2], names)}){it[3]}" if it and len(names) > 1 else rhs
            return as_record(rhs, names)
        if re.match(r"returns(-\d+)?$", norm(old)):
            return as_record(rhs, LABELS.get(self.name, {}).get("ensures", []))
        return rhs

    def body(self, text, var, at):
        # a name for the record of an earlier step
        while True:
            m = re.search(r"let (%s) = %s((?:\.before)*) in(?=\s)[ ]?" % (W, re.escape(var)), text)
            if not m or m[1] == var:
                break
            text = text[: m.start()] + re.sub(r"(?<![\w.'-])%s(?=\.)" % re.escape(m[1]), var + m[2], text[m.end() :])
            text = re.sub(r"(?m)^\s+$\n?", "", text)

        def put(m):
            parts = m[0].split(".")[1:]
            new = self.path(parts, at)
            return var if new is None else ".".join([var if var == "c" else "c"] + new)

        return re.sub(r"(?<![\w.'-])%s(?:\.[^\s(){}.;,@\"«»\[\]\\]+)+" % re.escape(var), put, text)


def invariant(group, fn, left):
    sig = group[2][0]
    m = re.match(r"(?:abbrev |unfoldable |pub )*(%s) : (?:tie|Tie)\.(\S+)" % W, sig)
    kind, loop = re.match(r"(invariant|decreases)-(.*)", m[2]).groups()
    new, variables = None, []
    for (old, to), names in fn.of["loops"]:
        if norm(old) == norm(loop):
            new, variables = to, names
    lines = group[2][1:]
    head = re.match(r"(%s)((?: (?!= |=$)%s)*?) =(.*)" % (W, W), lines[0]) if lines else None
    if not head or not new:
        left.append("loop " + loop)
        return None
    known = {norm(v): v for v in variables}

    def put(m):
        name = m[0]
        base = name[:-1] if name.endswith("₀") else name
        if norm(base) not in known:
            left.append(f"variable {name}")
        base = known.get(norm(base), base)
        return f"l.initial.{base}" if name.endswith("₀") else f"l.{base}"

    params = head[2].split()
    text = "\n".join([head[3]] + lines[1:])
    if params:
        alternatives = "|".join(re.escape(p) for p in sorted(params, key=len, reverse=True))
        text = re.sub(r"(?<![^\s(){};,\[\]])(?:%s)(?=[\s(){}.;,\[\]]|$)" % alternatives, put, text)
    return f"{kind}-{new}", [*group[1], f"abbrev pub {kind}-{new} : goal.{kind}-{new}", f"{kind}-{new} l ={text}"]


def turn(path, of, crate, folder, others):
    fn, text = Function(of, (crate, folder.split("/")[-1])) if of else None, open(path, encoding="utf-8").read()
    heads, uses, own, invariants, answers, left = [], [], [], [], [], []
    items = groups(text)
    for kind, comment, lines in items:
        if kind == "use":
            heads += comment
            if not DROPPED.search(lines[0]) and not re.match(r"use (borrow\.Fn|\S*\.Kinds|\S*\.\+\S*\.(Lts|Tie|\{))", lines[0]):
                uses += lines
            continue
        sig = re.match(r"(?:abbrev |unfoldable |pub )*(%s) : (.*)" % W, lines[0])
        if not sig:
            own.append((comment, lines))
            continue
        name, typ = sig[1], sig[2]
        if re.match(r"[tT]ie\.(invariant|decreases)-", typ):
            it = invariant(["item", comment, lines], fn, left)
            if it:
                invariants.append(it)
        elif re.match(r"[tT]ie\.Need-", typ):
            old = re.match(r"[tT]ie\.Need-(\S+)", typ)[1]
            found = fn.goal(old)
            if not found:
                left.append(f"goal {old}")
                continue
            new, at = found
            unfold = [l for l in lines[1:] if l.startswith("unfolding")]
            body = [l for l in lines[1:] if not l.startswith("unfolding")]
            eq = body and re.match(r"%s((?: (?!= |=$)%s)*?) =(.*)" % (re.escape(name), W), body[0])
            if not eq:
                left.append(f"equation of {name}")
                answers.append((new, comment + lines))
                continue
            args = eq[1].split()
            rhs = "\n".join([eq[2]] + body[1:])
            if (TRIVIAL.fullmatch(rhs.strip()) and not unfold):
                continue
            rhs = fn.shaped(old, fn.body(rhs, args[0] if args else "c", at))
            answers.append((new, [*comment, f"pub {new} : goal.{new}", *unfold, f"{new} c ={rhs}"]))
        elif re.match(r"\(t : [^)]*\) → \S+-lts\.Need-", typ):
            whose, old = re.match(r"\(t : [^)]*\) → (\S+)-lts\.Need-(\S+)", typ).groups()
            this = others.get(norm(whose))
            found = this and this.goal(old)
            if not found:
                left.append(f"goal {whose} {old}")
                continue
            new, at = found
            new = this.of["stem"] + new
            unfold = [l for l in lines[1:] if l.startswith("unfolding")]
            body = [l for l in lines[1:] if not l.startswith("unfolding")]
            eq = re.match(r"%s((?: (?!= |=$)%s)*?) =(.*)" % (re.escape(name), W), body[0])
            args = eq[1].split()
            rhs = "\n".join([eq[2]] + body[1:])
            if (TRIVIAL.fullmatch(rhs.strip()) and not unfold):
                continue
            rhs = this.shaped(old, this.body(rhs, args[1], at))
            left += this.left
            answers.append((new, [*comment, f"pub {new} : goal.{new}", *unfold, f"{new} t c ={rhs}"]))
        elif name.endswith("-spec") or name.endswith("_spec") or (others and re.search(r"Measures|-kinds\.|-lts\.|-reads\.", "\n".join(lines))):
            continue
        else:
            own.append((comment, lines))
    lib = f"Rattle.{crate}.proofs.{folder.replace('/', '.')}"
    made = []
    uses = [re.sub(r"borrow\.Author\.Rules\.\{rules\}", "Rattle.std.proofs.Common.{rules}", u) for u in uses]

    def file(name, blocks, goal):
        words = set(re.findall(W, "\n".join("\n".join(b) for b in blocks)))

        def needed(use):
            m = re.match(r"(.*\.\{)([^}]*)(\})$", use)
            if not m:
                return use
            kept = [it for it in m[2].split(", ") if not re.search(r"\w", it) or it.split(" as ")[-1] in words or it == "arith"]
            return m[1] + ", ".join(kept) + m[3] if kept else None

        out = [*heads, *(u for u in map(needed, uses) if u), f"use {lib}.{goal} as goal", ""]
        for b in blocks:
            out += [*b, ""]
        with open(os.path.join(os.path.dirname(path), name), "w", encoding="utf-8") as f:
            f.write("\n".join(out).rstrip() + "\n")
        made.append(name)

    words = lambda blocks: set(re.findall(W, "\n".join("\n".join(b) for b in blocks)))
    own_names = {m[1]: (c, l) for c, l in own for m in [re.match(r"(?:abbrev |unfoldable |pub )*(%s) : " % W, l[0])] if m}
    inv_blocks = [b for _, b in invariants]
    shared, todo = [], words(inv_blocks)
    while True:
        more = [n for n in own_names if n in todo and n not in shared]
        if not more:
            break
        shared += more
        todo |= words([own_names[n][1] for n in more])
    if invariants:
        first = [c + ([l[0] if "pub " in l[0] else re.sub(r"^(abbrev |unfoldable )?", lambda m: (m[1] or "abbrev ") + "pub ", l[0])] + l[1:]) for n, (c, l) in own_names.items() if n in shared]
        file("Invariants.antt", first + inv_blocks, "Given")
    if shared:
        uses.append(f"use {lib}.Invariants.{{{', '.join(n for n in own_names if n in shared)}}}")
    rest = [c + l for c, l in own if not any(l is own_names[n][1] for n in shared)]
    if answers:
        file("Answers.antt", rest + [b for _, b in answers], "Goals")
    os.remove(path)
    said = (fn.left if fn else []) + left
    print(f"{crate} {folder}: {', '.join(made) or 'no file'}" + (f"  LEFT {sorted(set(said))}" if said else ""))


def members(crate, in_cycles, key):
    """The functions of a cycle by their whole names."""
    folder = key.rsplit("/", 1)[0]
    at = folder.split("/+")[0] if "/+" in folder else ""
    return {"::".join([crate, *([it for it in at.split("/") if it] if at else []), k.rsplit("/", 1)[1][4:]]) for k in in_cycles if k.startswith(folder + "/Lts-")}


def main():
    names, crate, only = sys.argv[1], sys.argv[2].rstrip("/"), sys.argv[3:]
    name = os.path.basename(crate)
    every = {k: v for k, v in json.load(open(names, encoding="utf-8")).items() if ".Lts" in k and isinstance(v, dict)}
    by_folder = {k.split(".", 1)[1].rsplit(".Lts", 1)[0].replace(".", "/"): v for k, v in every.items()}
    in_cycles = {k.split(".", 1)[1].replace(".", "/"): v for k, v in every.items() if ".Lts-" in k}
    for path in sorted(glob.glob(f"{glob.escape(crate)}/proofs/**/Proof.antt", recursive=True)):
        folder = os.path.relpath(os.path.dirname(path), f"{crate}/proofs")
        if only and folder not in only:
            continue
        cycle = {norm(k.rsplit("/", 1)[1][4:]): Function(v, (name, k.rsplit("/", 1)[1][4:]), members(name, in_cycles, k)) for k, v in in_cycles.items() if k.startswith(folder + "/Lts-")}
        if folder not in by_folder and not cycle:
            print(f"{name} {folder}: no such function among the names")
            continue
        turn(path, by_folder.get(folder), name, folder, cycle)


if __name__ == "__main__":
    main()
