// The two sides: the library's tokens and trees, and what ASCIIMathML.js draws.
"use strict";
const fs = require("fs");
const { spawnSync } = require("child_process");
const { AsciiMathML } = require("./asciimathml.js");
const { Drawing } = require("./draw.js");
const { answer } = require("./tree.js");

// Whether the grammar settles a list of kinds, Space passed over (document 01, "Grammar").
function settles(kinds) {
    const constant = (kind) => (kind >= 4 && kind <= 15);
    // each gives the place behind what it derives, or Infinity
    const S = (at) => {
        if (constant(kinds[at])) return at + 1;
        if (kinds[at] === 18) return S(at + 1);
        if (kinds[at] === 19) return S(S(at + 1));
        if (kinds[at] !== 20) return Infinity;
        const end = E(at + 1);
        return kinds[end] === 21 ? end + 1 : Infinity;
    };
    const I = (at) => {
        let end = S(at);
        if (kinds[end] === 2) end = S(end + 1);
        return kinds[end] === 1 ? S(end + 1) : end;
    };
    const E = (at) => {
        const end = I(at);
        if (kinds[end] === 0) return I(end + 1);
        return end < kinds.length && kinds[end] !== 21 ? E(end) : end;
    };
    const apart = kinds.every((kind, at) => kind !== 20 || kinds[at + 1] !== 20);
    return kinds.length <= 127 && apart && E(0) === kinds.length;
}

class Sides {
    // program: of tree.c; script: ASCIIMathML.js; rows: a file of the project's spellings, each with its kind
    constructor(program, script, rows) {
        this.program = program;
        this.am = new AsciiMathML(script);
        this.drawing = new Drawing(this.am);
        this.rows = JSON.parse(fs.readFileSync(rows, "utf8"));
    }

    library(texts) {
        const input = texts.map((text) => Buffer.from(text, "latin1").toString("hex") + "\n").join("");
        const { status, stdout, stderr } = spawnSync(this.program, { input, maxBuffer: 1 << 30 });
        if (status !== 0) throw new Error(`${this.program}: ${stderr}`);
        return stdout.toString().split("\n").slice(0, -1).map((line, index) => answer(texts[index], line));
    }

    // what ASCIIMathML.js would draw of the library's items, and what it draws of the text
    drawn(items) {
        return JSON.stringify(this.drawing.items(items));
    }
    theirs(text) {
        return JSON.stringify(this.am.draw(text));
    }
}

module.exports = { Sides, settles };
