// ASCIIMathML.js over a few lines of DOM.
"use strict";
const fs = require("fs");
const vm = require("vm");

// What ASCIIMathML.js asks of a browser's nodes, and no more; as there, a text has no children, and the child
// of an element without any is null.
class DomNode {
    constructor(name, value = null) {
        this.nodeName = name;
        this.nodeValue = value;
        this.childNodes = [];
        this.parentNode = null;
        this.style = {};
    }
    get firstChild() {
        return this.childNodes[0] ?? null;
    }
    get lastChild() {
        return this.childNodes.at(-1) ?? null;
    }
    get nextSibling() {
        const all = this.parentNode.childNodes;
        return all[all.indexOf(this) + 1] ?? null;
    }
    setAttribute() {}
    appendChild(child) {
        if (child.nodeName === "#document-fragment") {
            for (const one of [...child.childNodes]) this.appendChild(one);
            return child;
        }
        child.parentNode?.removeChild(child);
        child.parentNode = this;
        this.childNodes.push(child);
        return child;
    }
    removeChild(child) {
        const at = this.childNodes.indexOf(child);
        if (at < 0) throw new Error("not a child");
        this.childNodes.splice(at, 1);
        child.parentNode = null;
        return child;
    }
    replaceChild(child, old) {
        child.parentNode?.removeChild(child);
        const at = this.childNodes.indexOf(old);
        if (at < 0) throw new Error("not a child");
        this.childNodes[at] = child;
        child.parentNode = this;
        old.parentNode = null;
        return old;
    }
}

// An element is the list of its name and its children, a text a string.
function plain(node) {
    return node.nodeName === "#text" ? node.nodeValue : [node.nodeName, ...node.childNodes.map(plain)];
}

const TYPES = "CONST UNARY BINARY INFIX LEFTBRACKET RIGHTBRACKET SPACE UNDEROVER DEFINITION LEFTRIGHT TEXT".split(" ");

class AsciiMathML {
    constructor(path) {
        const page = {
            document: {
                createElementNS: (_, name) => new DomNode(name),
                createTextNode: (value) => new DomNode("#text", value),
                createDocumentFragment: () => new DomNode("#document-fragment"),
                getElementById: () => null,
            },
            navigator: { appName: "Netscape", appVersion: "5" },
            window: { addEventListener() {} },
        };
        vm.runInNewContext(fs.readFileSync(path, "utf8"), page, { filename: path });
        this.page = page;
        this.version = /Version ([\d.]+)/.exec(fs.readFileSync(path, "utf8"))[1];
        this.types = {};
        for (const type of TYPES) this.types[page[type]] = type;
        this.list();
    }

    // its own table: spelling, element, display form and type
    list() {
        this.symbols = new Map(this.page.AMsymbols.map((symbol) => [symbol.input, symbol]));
    }

    // Enters spellings, each with its type, in the table, as its own `define` does.
    tell(spellings) {
        const { page } = this;
        const tag = (type) => (type === "UNARY" ? "mstyle" : "mo");
        const entries = spellings.map(([input, type]) => ({ input, tag: tag(type), output: input, tex: null, ttype: page[type] }));
        page.AMsymbols = page.AMsymbols.concat(entries).sort(page.compareNames);
        page.AMsymbols.forEach((symbol, index) => (page.AMnames[index] = symbol.input));
        this.list();
    }

    type(spelling) {
        const symbol = this.symbols.get(spelling);
        return symbol && this.types[symbol.ttype];
    }

    // The children of the formula's mstyle, or the error's words.
    draw(text) {
        try {
            return plain(this.page.AMparseMath(text).firstChild.firstChild).slice(1);
        } catch (error) {
            return [["error", error.message]];
        }
    }
}

module.exports = { AsciiMathML };
