// What the compared texts held.
"use strict";

const SCRIPTS = ["bare", "sub", "super", "subsuper"];
const RULES = { group: "bracketed", unary: "unary", binary: "binary" };
const ROLES = { 0: "/", 1: "^", 2: "_", 18: "unary", 19: "binary", 20: "open", 21: "close" };

const more = (counts, names) => names.forEach((name) => (counts[name] = (counts[name] ?? 0) + 1));

class Counts {
    texts = {}; // by rule
    pairs = {}; // a rule and the rule at one of its places
    neighbours = {}; // the roles of two tokens, one after the other
    spellings = {};
    depths = [];
    lengths = []; // in tokens

    add(text, items, tokens) {
        this.seen = new Set();
        this.depths.push(this.E("text", items, 0));
        more(this.pairs, [...this.seen]);
        more(this.texts, [...new Set([...this.seen].map((pair) => pair.split(" > ")[1]))]);
        const roles = tokens.map(([, , kind]) => ROLES[kind] ?? "constant");
        more(this.neighbours, [...new Set(roles.slice(1).map((role, index) => `${roles[index]} ${role}`))]);
        const spelled = tokens.filter(([, , kind]) => kind < 4 || kind > 7);
        more(this.spellings, [...new Set(spelled.map(([at, length]) => text.slice(at, at + length)))]);
        this.lengths.push(tokens.length);
    }

    // each gives the depth of arguments, scripts and brackets reached
    E(place, [item, ...rest], depth) {
        const rule = item.name === "frac" ? "fraction" : rest.length ? "more" : "alone";
        this.seen.add(`${place} > ${rule}`);
        const parts = rule === "fraction" ? item.below : [item];
        const depths = parts.map((part, index) => this.below(`${rule} ${index + 1}`, part, depth));
        if (rest.length) depths.push(this.E("more 2", rest, depth));
        return Math.max(...depths);
    }

    below(place, node, depth) {
        const rule = node.name === "simple" ? SCRIPTS[node.script] : (RULES[node.name] ?? "constant");
        this.seen.add(`${place} > ${rule}`);
        if (rule === "constant") return depth;
        if (rule === "bracketed") return this.E(rule, node.below, depth + 1);
        const deeper = (index) => depth + (node.name !== "simple" || index > 0);
        return Math.max(...node.below.map((one, index) => this.below(`${rule} ${index + 1}`, one, deeper(index))));
    }

    say() {
        const least = (counts) => Object.entries(counts).sort(([, a], [, b]) => a - b)[0] ?? [];
        const most = (numbers) => numbers.reduce((a, b) => Math.max(a, b), 0);
        const deep = (depth) => `${depth} or more in ${this.depths.filter((one) => one >= depth).length}`;
        const rules = ["fraction", "sub", "super", "subsuper", "unary", "binary", "bracketed"];
        console.log(`texts that hold ${rules.map((rule) => `${rule} ${this.texts[rule] ?? 0}`).join(", ")}`);
        console.log(`depth ${deep(3)}, ${deep(10)}, ${deep(30)}, the most ${most(this.depths)}`);
        console.log(`${this.lengths.reduce((a, b) => a + b, 0)} tokens, the most in a text ${most(this.lengths)}`);
        // those that the grammar has: three rules of E in the text, in a bracket and behind an item, four of I at four places, four
        // of S at eleven; behind the end of an S eight roles, behind unary, binary and the marks four, behind an opening bracket three
        for (const [what, counts] of [
            ["of 69 pairs of a rule and one at a place of it", this.pairs],
            ["of 39 pairs of roles of neighbouring tokens", this.neighbours],
            ["spellings", this.spellings],
        ]) {
            const [rarest, texts] = least(counts);
            console.log(`${Object.keys(counts).length} ${what}, the rarest (${rarest}) in ${texts} texts`);
        }
    }
}

module.exports = { Counts };
