// Random texts that the grammar settles, each with its tokens and its derivation.
"use strict";
const { asArgument } = require("./left_out.js");

const KINDS = { Frac: 0, Super: 1, Sub: 2, Number: 4, Text: 5, Ident: 6, Operator: 7 };
Object.assign(KINDS, { Unary: 18, Binary: 19, OpenBracket: 20, CloseBracket: 21 });
const MOST = 127;
const BLANKS = [" ", " ", " ", "  ", "\t", "\n", "\r\n", "\v", "\f", " \t \n"];
const LETTERS = [..."abcdehijklmnopqrstuvwxyzABCDEFGHIJKLMNOPQRSTUVWXYZ"]; // f and g are functions
const OPERATORS = [..."#$&.:;?`\x7f"];
const INSIDE = [..."ab1 ()[]{}|,;^_/\\.&<>-\t\n\x01", "sqrt", "alpha"]; // of a text

// A seed's random numbers (mulberry32).
function random(seed) {
    let state = 0;
    for (const char of seed) state = (Math.imul(state ^ char.charCodeAt(0), 0x9e3779b1) >>> 0) + 1;
    return () => {
        state = (state + 0x6d2b79f5) | 0;
        let mixed = Math.imul(state ^ (state >>> 15), 1 | state);
        mixed = (mixed + Math.imul(mixed ^ (mixed >>> 7), 61 | mixed)) ^ mixed;
        return ((mixed ^ (mixed >>> 14)) >>> 0) / 4294967296;
    };
}

class Maker {
    // rows: the spellings that are compared, with their kinds; names: all that either side knows
    constructor(rows, names) {
        const of = (...kinds) => rows.filter(([, kind]) => kinds.includes(kind)).map(([spelling]) => spelling);
        this.symbols = rows.filter(([, kind]) => kind >= 8 && kind <= 15);
        this.unaries = of(KINDS.Unary).filter((spelling) => spelling !== "text" && spelling !== "mbox");
        this.binaries = of(KINDS.Binary);
        this.opens = of(KINDS.OpenBracket);
        this.closes = of(KINDS.CloseBracket);
        this.names = new Map();
        for (const name of [...names].sort((a, b) => b.length - a.length))
            this.names.set(name[0], [...(this.names.get(name[0]) ?? []), name]);
    }

    below(count) {
        return Math.floor(this.next() * count);
    }

    often(part) {
        return this.next() < part;
    }

    pick(list) {
        return list[this.below(list.length)];
    }

    some(list, most) {
        return Array.from({ length: this.below(most + 1) }, () => this.pick(list)).join("");
    }

    // A part of n, at least `least` and leaving at least `rest`; small ones on either side as often as any.
    split(n, least, rest) {
        const room = n - least - rest + 1;
        const near = Math.min(room, 3);
        return least + this.pick([() => this.below(room), () => this.below(near), () => room - 1 - this.below(near)])();
    }

    token(kind, bytes, more) {
        const token = { kind, bytes, before: "", after: "", ...more };
        this.tokens.push(token);
        return token;
    }

    // The nodes are as in tree.js, with a token where a span will be.
    leaf(name, token) {
        return { name, left: token, script: 0, right: null, below: [] };
    }

    constant(argument) {
        const symbol = () => {
            const [spelling, kind] = this.pick(this.symbols);
            return argument && asArgument(spelling) ? symbol() : this.leaf("symbol", this.token(kind, spelling, { spelled: true }));
        };
        return this.pick([
            () => this.leaf("ident", this.token(KINDS.Ident, this.pick(LETTERS))),
            () => this.leaf("number", this.token(KINDS.Number, this.pick(["1", "2", "07", "3.14", ".5", String(this.below(1000))]))),
            symbol,
            symbol,
            symbol,
            () => this.leaf("operator", this.token(KINDS.Operator, this.pick(OPERATORS))),
            () => this.leaf("text", this.token(KINDS.Text, this.inside(argument), { before: '"', after: '"' })),
        ])();
    }

    // The bytes of a text, without those that left_out.js names for an argument.
    inside(argument, close = '"') {
        const bytes = this.some(INSIDE, 5).replaceAll(close, "");
        return argument && asArgument(`"${bytes}"`) ? this.inside(argument, close) : bytes;
    }

    // text or mbox: four tokens, with no blanks behind the bracket
    command(argument) {
        const [open, close] = this.pick(["()", "[]", "{}"]);
        const left = this.token(KINDS.Unary, this.pick(["text", "mbox"]), { spelled: true });
        const bracket = this.token(KINDS.OpenBracket, open, { tight: true });
        const text = this.leaf("text", this.token(KINDS.Text, this.inside(argument, close), { tight: true }));
        const right = this.token(KINDS.CloseBracket, close);
        const alone = { name: "simple", left: null, script: 0, right: null, below: [text] };
        const group = { name: "group", left: bracket, script: 0, right, below: [alone] };
        return { name: "unary", left, script: 0, right: null, below: [group] };
    }

    // S of n tokens; `argument` if ASCIIMathML.js removes its brackets, `apart` if no bracket may stand first.
    S(n, argument, apart) {
        if (n === 1) return this.constant(argument);
        if (n === 4 && this.often(0.1)) return this.command(argument);
        const rule = this.pick(n === 2 ? ["unary"] : apart ? ["unary", "binary"] : ["unary", "binary", "bracketed", "bracketed"]);
        if (rule === "bracketed") {
            const left = this.token(KINDS.OpenBracket, this.pick(this.often(0.6) ? ["(", "[", "{"] : this.opens), { spelled: true });
            const below = this.E(n - 2, true);
            const right = this.token(KINDS.CloseBracket, this.pick(this.often(0.6) ? [")", "]", "}"] : this.closes), { spelled: true });
            return { name: "group", left, script: 0, right, below };
        }
        if (rule === "unary") {
            const left = this.token(KINDS.Unary, this.pick(this.unaries), { spelled: true });
            return { name: "unary", left, script: 0, right: null, below: [this.S(n - 1, true, false)] };
        }
        const left = this.token(KINDS.Binary, this.pick(this.binaries), { spelled: true });
        const first = this.split(n - 1, 1, 1);
        return { name: "binary", left, script: 0, right: null, below: [this.S(first, true, false), this.S(n - 1 - first, true, false)] };
    }

    I(n, part, apart) {
        const forms = n >= 5 ? [0, 0, 1, 2, 3] : n >= 3 ? [0, 0, 1, 2] : [0];
        const script = this.pick(forms);
        const scripts = [];
        const sizes = [];
        let left = n;
        for (const mark of script === 3 ? ["Sub", "Super"] : script === 2 ? ["Super"] : script === 1 ? ["Sub"] : []) {
            const rest = script === 3 && mark === "Sub" ? 3 : 1;
            sizes.push([mark, this.split(left - 1, 1, rest)]);
            left -= 1 + sizes.at(-1)[1];
        }
        const base = this.S(left, part && script === 0, apart);
        for (const [mark, size] of sizes) {
            this.token(KINDS[mark], mark === "Sub" ? "_" : "^", { spelled: true });
            scripts.push(this.S(size, true, false));
        }
        return { name: "simple", left: null, script, right: null, below: [base, ...scripts] };
    }

    E(n, apart) {
        const rule = this.pick(n >= 3 ? ["more", "more", "fraction", "alone"] : n === 2 ? ["more", "alone"] : ["alone"]);
        if (rule === "alone") return [this.I(n, false, apart)];
        if (rule === "more") {
            const first = this.split(n, 1, 1);
            return [this.I(first, false, apart), ...this.E(n - first, false)];
        }
        const first = this.split(n - 1, 1, 1);
        const above = this.I(first, true, apart);
        this.token(KINDS.Frac, "/", { spelled: true });
        return [{ name: "frac", below: [above, this.I(n - 1 - first, true, false)] }];
    }

    // Whether each side reads the token at a place of the text as it was meant.
    stands(token, text, at) {
        const name = this.names.get(text[at])?.find((one) => text.startsWith(one, at)) ?? "";
        if (token.spelled) return name === token.bytes;
        const rest = text.slice(at, at + 20);
        const numbers = [/^(\d+\.?\d*|\.\d+)/, /^(\d+\.\d+|\d+|\.\d+)/].map((form) => form.exec(rest)?.[0] ?? "");
        return name === "" && numbers.every((number) => number === (token.kind === KINDS.Number ? token.bytes : ""));
    }

    // The text, with blanks where they are needed and sometimes elsewhere; sets each token's start.
    laid() {
        const blank = this.pick([0, 0.1, 0.3, 0.9]);
        const behind = this.tokens.map((token) => (!token.tight && this.often(blank) ? this.pick(BLANKS) : ""));
        const lead = this.often(0.05) ? this.pick(BLANKS) : "";
        for (;;) {
            let text = lead;
            this.tokens.forEach((token, index) => {
                token.at = text.length + token.before.length;
                text += token.before + token.bytes + token.after + behind[index];
            });
            const wrong = this.tokens.findIndex((token, index) => {
                const free = token.kind === KINDS.Text || this.tokens[index - 1]?.tight || token.tight;
                return !free && !this.stands(token, text, token.at);
            });
            if (wrong < 0) return text;
            if (behind[wrong]) throw new Error(`${JSON.stringify(text)}: ${this.tokens[wrong].bytes} is not read`);
            behind[wrong] = this.pick(BLANKS);
        }
    }

    // The index-th text of a seed. Short ones are as often as long ones.
    make(seed, index) {
        this.next = random(`${seed} ${index}`);
        this.tokens = [];
        const items = this.E(Math.min(MOST, Math.floor((MOST + 1) ** this.next())), false);
        return { text: this.laid(), tokens: this.tokens.map(({ at, bytes, kind }) => [at, bytes.length, kind]), items };
    }
}

module.exports = { Maker, KINDS };
