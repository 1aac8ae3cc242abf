// The library's tree words (docs/LAYOUT.md) as nodes.
"use strict";

const LEAVES = ["missing", "number", "text", "ident", "operator", "sign", "space", "symbol"];
const NAMES = [...LEAVES, "signed", "ssigned", "unary", "sfunc", "binary", "simple", "func", "group", "matrix", "cell"];
const SCRIPTS = [1, 2, 2, 3];

// A node is its name, its span and its right bracket's span (of a token: the bytes), its script, and the nodes below
// it; a matrix has its columns and the number of its lines besides. Items that are Space are left out: the grammar passes
// them over.
class Reader {
    constructor(text, words) {
        this.text = text;
        this.words = words;
        this.at = 0;
    }

    word(ahead) {
        return this.words[this.at + ahead] ?? 0;
    }

    span(ahead) {
        const at = this.word(ahead);
        return { at, len: this.word(ahead + 1), bytes: this.text.slice(at, at + this.word(ahead + 1)) };
    }

    several(count) {
        return Array.from({ length: count }, () => this.node());
    }

    node() {
        const name = NAMES[this.word(0)];
        const held = this.word(3);
        const node = { name, left: this.span(1), script: 0, right: this.span(4), below: [] };
        const columns = this.word(6);
        const lines = this.word(7);
        this.at += 6;
        if (name === "simple" || name === "func") {
            node.script = held;
            node.below = this.several(SCRIPTS[held]);
        } else if (name === "group") {
            node.below = this.items(held);
        } else if (name === "cell") {
            node.right = { at: 0, len: 0, bytes: "" };
            node.below = this.items(held);
        } else if (name === "matrix") {
            this.at += 2;
            node.columns = columns;
            node.lines = lines;
            node.below = this.several(held);
            this.at += lines;
        } else if (["signed", "ssigned", "unary", "sfunc"].includes(name)) {
            node.below = this.several(1);
        } else if (name === "binary") {
            node.below = this.several(2);
        }
        return node;
    }

    items(count) {
        const items = [];
        for (; count > 0; count--) {
            const fraction = this.word(0);
            this.at += 1;
            if (fraction) items.push({ name: "frac", below: this.several(2) });
            else items.push(this.node());
        }
        return items.filter((item) => item.name !== "space");
    }
}

// A line of tree.c: the tokens other than Space, each with start, length and kind, and the root's items.
function answer(text, line) {
    const [table, items, words] = line.split("\t").map((field) => (field ? field.split(" ").map(Number) : []));
    const tokens = [];
    for (let at = 0; at < table.length; at += 3) if (table[at + 2] !== 23) tokens.push(table.slice(at, at + 3));
    return { tokens, items: new Reader(text, words).items(items[0]) };
}

module.exports = { answer };
