// Texts that the grammar settles, on both sides.
"use strict";
const { settles } = require("./sides.js");
const { Counts } = require("./counts.js");
const { Maker, KINDS } = require("./texts.js");
const { FAULTS } = require("./faults.js");
const { UNKNOWN, NEVER, SETTLED } = require("./left_out.js");

const BATCH = 2000;
// our kinds, each with the types of ASCIIMathML.js that are the same role, the plain one first
const ROLES = {
    [KINDS.Unary]: ["UNARY", "TEXT"],
    [KINDS.Binary]: ["BINARY"],
    [KINDS.OpenBracket]: ["LEFTBRACKET"],
    [KINDS.CloseBracket]: ["RIGHTBRACKET"],
};
for (let kind = 8; kind <= 15; kind++) ROLES[kind] = ["CONST", "UNDEROVER", "SPACE", "DEFINITION"];

// The rows whose spelling ASCIIMathML.js has in the same role; a byte that it has no symbol for is a constant. With `told` it
// is first told what it does not know.
function compared({ am, rows }, told) {
    const all = rows.filter(([, kind]) => kind in ROLES);
    const type = (spelling) => am.type(spelling) ?? (spelling.length === 1 && spelling !== "\\" ? "CONST" : "");
    const same = ([spelling, kind]) => ROLES[kind].includes(type(spelling));
    const out = all.filter((row) => !same(row)).map(([spelling]) => spelling);
    const listed = [...UNKNOWN, ...NEVER];
    const wrong = [...listed.filter((one) => !out.includes(one)), ...out.filter((one) => !listed.includes(one)), ...UNKNOWN.filter(type)];
    if (wrong.length) throw new Error(`left_out.js is not right about ${wrong.join(" ")}`);
    if (told) am.tell(all.filter(([spelling]) => UNKNOWN.includes(spelling)).map(([spelling, kind]) => [spelling, ROLES[kind][0]]));
    const some = all.filter(same);
    const what = told ? `, told ${UNKNOWN.length} spellings` : "";
    console.log(`ASCIIMathML.js ${am.version}${what}: ${some.length} of ${all.length} spellings compared`);
    return some;
}

// The texts of left_out.js are settled and drawn otherwise.
function checkLeftOut(sides) {
    sides.library(SETTLED.map(([text]) => text)).forEach((read, index) => {
        const [text] = SETTLED[index];
        if (!settles(read.tokens.map(([, , kind]) => kind))) throw new Error(`left_out.js: ${JSON.stringify(text)} is not settled`);
        if (sides.drawn(read.items) === sides.theirs(text)) throw new Error(`left_out.js: ${JSON.stringify(text)} is no departure`);
    });
    console.log(`${SETTLED.length} departures of ASCIIMathML.js from the grammar are left out (left_out.js); each is there`);
}

// The derivation with spans in the place of tokens, as tree.js has them.
function placed(node) {
    if (node.name === "frac") return { name: "frac", below: node.below.map(placed) };
    const span = (token) => (token ? { at: token.at, len: token.bytes.length, bytes: token.bytes } : { at: 0, len: 0, bytes: "" });
    return { name: node.name, left: span(node.left), script: node.script, right: span(node.right), below: node.below.map(placed) };
}

// Calls `each` with every text made and the library's answer to it.
function forEachText(sides, maker, seed, count, each) {
    for (let from = 0; from < count; from += BATCH) {
        const made = Array.from({ length: Math.min(BATCH, count - from) }, (_, index) => maker.make(seed, from + index));
        sides.library(made.map((one) => one.text)).forEach((read, index) => each(made[index], read));
    }
}

function makerOf(sides, told) {
    return new Maker(compared(sides, told), new Set([...sides.rows.map(([spelling]) => spelling), ...sides.am.symbols.keys()]));
}

const shown = (text) => JSON.stringify(text).replaceAll("\x7f", "\\u007f");

// Tokens are as they were meant, the tree is the derivation, and ASCIIMathML.js draws what it would draw of the tree.
function settled(sides, seed, count, told) {
    const maker = makerOf(sides, told);
    checkLeftOut(sides);
    const counts = new Counts();
    const found = [];
    forEachText(sides, maker, seed, count, (made, read) => {
        const differ = (what) => found.push({ text: made.text, what });
        if (JSON.stringify(read.tokens) !== JSON.stringify(made.tokens)) return differ("other tokens than were meant");
        if (!settles(read.tokens.map(([, , kind]) => kind))) return differ("a list that is not settled");
        if (JSON.stringify(read.items) !== JSON.stringify(made.items.map(placed))) return differ("another tree than the derivation");
        const [drawn, theirs] = [sides.drawn(read.items), sides.theirs(made.text)];
        if (drawn !== theirs) return differ(`of the tree  ${drawn}\n  of the text  ${theirs}`);
        counts.add(made.text, read.items, read.tokens);
    });
    // the shortest first
    found.sort((a, b) => a.text.length - b.text.length);
    for (const { text, what } of found.slice(0, 5)) console.log(`${shown(text)}\n  ${what}`);
    counts.say();
    console.log(`seed ${seed}: ${count} texts, ${found.length} differences`);
    return found.length === 0;
}

// Each fault is planted in every tree that has a place for it; only the drawings are compared.
function selftest(sides, seed, count) {
    const maker = makerOf(sides, false);
    const tried = FAULTS.map(() => ({ planted: 0, found: 0 }));
    forEachText(sides, maker, seed, count, (made, read) => {
        const theirs = sides.theirs(made.text);
        FAULTS.forEach(({ plant }, index) => {
            const wrong = structuredClone(read.items);
            if (!plant(wrong)) return;
            tried[index].planted += 1;
            const found = sides.drawn(wrong) !== theirs;
            tried[index].found += found;
            if (found && (tried[index].text ?? made.text).length >= made.text.length) tried[index].text = made.text;
        });
    });
    FAULTS.forEach(({ what }, index) => {
        const { planted, found, text } = tried[index];
        console.log(`${what}: found in ${found} of ${planted} texts, the shortest ${shown(text)}`);
    });
    return tried.every(({ planted, found }) => planted > 0 && found > 0.95 * planted);
}

module.exports = { settled, selftest };
