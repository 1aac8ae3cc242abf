// What ASCIIMathML.js would draw of a tree of the library: an element is the list of its name and its children, as in
// asciimathml.js. Which elements stand under which is decided by the tree alone; from ASCIIMathML.js's table
// come only element and display form of a spelling, and which of them have their scripts under and over.
"use strict";

const SPACE = ["mspace"];
const BOX = "\u25a1"; // where an argument is missing

class Drawing {
    constructor(asciimathml) {
        this.am = asciimathml;
    }

    items(items) {
        return items.flatMap((item) => this.item(item));
    }

    // An item is one element; outside the settled texts a sign, and a function with scripts, stand before their operand,
    // which is not drawn if it is missing.
    item(node) {
        switch (node.name) {
            case "frac":
                return [["mfrac", this.part(node.below[0]), this.part(node.below[1])]];
            case "signed":
                return [this.leaf(node), ...this.operand(node.below[0])];
            case "func": {
                const scripts = node.below.slice(0, -1);
                const drawn = [this.scripted(this.leaf(node), node.script, scripts, false), ...this.operand(node.below.at(-1))];
                return node.script === 0 && drawn.length > 1 ? [["mrow", ...drawn]] : drawn;
            }
            case "simple": {
                const [base, ...scripts] = node.below;
                const underover = base.name === "symbol" && this.am.type(base.left.bytes) === "UNDEROVER";
                return [this.scripted(this.simple(base), node.script, scripts, underover)];
            }
            default:
                return [this.simple(node)];
        }
    }

    operand(node) {
        return node.name === "simple" && node.below[0].name === "missing" && node.script === 0 ? [] : this.item(node);
    }

    // sum, lim and the like have sub and super under and over, but a super alone is a plain one; the two together stand in a row.
    scripted(base, script, scripts, underover) {
        const below = [base, ...scripts.map((one) => this.argument(one))];
        if (script === 1) return [underover ? "munder" : "msub", ...below];
        if (script === 2) return ["msup", ...below];
        if (script === 3) return ["mrow", [underover ? "munderover" : "msubsup", ...below]];
        return base;
    }

    // A numerator or denominator: it loses its brackets if it has no scripts.
    part(node) {
        if (node.name === "simple" && node.script === 0) return this.argument(node.below[0]);
        const drawn = this.item(node);
        return drawn.length === 1 ? drawn[0] : ["mrow", ...drawn];
    }

    // An argument that is bracketed loses a left ( [ { and a right ) ] }, each for itself; the row stays.
    argument(node) {
        if (node.name !== "group") return this.simple(node);
        const kept = (bracket, removed) => (removed.includes(bracket.bytes) ? [] : this.bracket(bracket));
        return ["mrow", ...kept(node.left, ["(", "[", "{"]), ...this.items(node.below), ...kept(node.right, [")", "]", "}"])];
    }

    bracket(span) {
        const symbol = this.am.symbols.get(span.bytes);
        return span.len === 0 || symbol?.invisible ? [] : [["mo", symbol?.output ?? span.bytes]];
    }

    simple(node) {
        switch (node.name) {
            case "number":
                return ["mn", node.left.bytes];
            case "ident":
                return ["mi", node.left.bytes];
            case "operator":
                return ["mo", node.left.bytes];
            case "text":
                return this.text(node.left.bytes);
            case "symbol":
            case "sign":
                return this.leaf(node);
            case "group":
                return ["mrow", ...this.bracket(node.left), ...this.items(node.below), ...this.bracket(node.right)];
            case "unary":
                return this.unary(node.left.bytes, node.below[0]);
            case "binary":
                return this.binary(node.left.bytes, ...node.below.map((one) => this.argument(one)));
            // outside the settled texts
            case "missing":
                return ["mo", BOX];
            case "ssigned":
            case "sfunc":
                return ["mrow", this.leaf(node), this.simple(node.below[0])];
            case "matrix":
                return ["mrow", ...this.bracket(node.left), this.table(node), ...this.bracket(node.right)];
        }
        throw new Error(`a node ${node.name}`);
    }

    // The display form of a spelling; one byte that ASCIIMathML.js has no spelling for stands for itself.
    leaf(node) {
        const bytes = node.left.bytes;
        const symbol = this.am.symbols.get(bytes);
        switch (this.am.type(bytes)) {
            case "SPACE":
                return ["mrow", SPACE, [symbol.tag, symbol.output], SPACE];
            case "DEFINITION": // dx is short for {:d x:}
                return ["mrow", ...[.../^{:(\w) (\w):}$/.exec(symbol.output)].slice(1).map((letter) => ["mi", letter])];
            case "LEFTRIGHT": // a bar that has no partner
                return ["mrow", ["mo", symbol.output]];
            case "INFIX": // a mark that has nothing before it
                return ["mo", symbol.output];
        }
        return symbol ? [symbol.tag, symbol.output] : [/^[a-z]$/i.test(bytes) ? "mi" : "mo", bytes];
    }

    // A blank at an end of a text is drawn beside it.
    text(bytes) {
        return ["mrow", ...(bytes.startsWith(" ") ? [SPACE] : []), ["mtext", bytes], ...(bytes.endsWith(" ") ? [SPACE] : [])];
    }

    unary(spelling, node) {
        const symbol = this.am.symbols.get(spelling);
        if (this.am.type(spelling) === "TEXT") {
            // its brackets are not drawn
            const [inside] = node.name === "group" && node.below.length === 1 ? node.below[0].below : [node];
            return inside.name === "text" ? this.text(inside.left.bytes) : ["unary", spelling, this.argument(node)];
        }
        const drawn = this.argument(node);
        // overline and underline, LaTeX's names of bar and ul, are drawn without their line
        if (symbol.acc) return [symbol.tag, drawn, ["mo", symbol.output]];
        return [symbol.tag, symbol.codes ? this.lettered(drawn, symbol.codes) : drawn];
    }

    // Fonts with letters of their own: an identifier, or those directly in the argument's element, are drawn without an
    // element, capitals in the font's letters.
    lettered(drawn, codes) {
        const letters = ([, bytes]) => bytes.replace(/[A-Z]/g, (letter) => String.fromCharCode(codes[letter.charCodeAt(0) - 65]));
        const one = (element) => (element[0] === "mi" ? letters(element) : element);
        return drawn[0] === "mi" ? letters(drawn) : [drawn[0], ...drawn.slice(1).map(one)];
    }

    // The index of a root and what is put over something stand last.
    binary(spelling, first, second) {
        const { tag } = this.am.symbols.get(spelling);
        return spelling === "frac" ? [tag, first, second] : [tag, second, first];
    }

    table(node) {
        const rows = [];
        for (let at = 0; at < node.below.length; at += node.columns)
            rows.push(["mtr", ...node.below.slice(at, at + node.columns).map((cell) => ["mtd", ...this.items(cell.below)])]);
        return ["mtable", ...rows];
    }
}

module.exports = { Drawing, BOX };
