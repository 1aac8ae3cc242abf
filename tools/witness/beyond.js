// Texts that the grammar does not settle: every one of a few tokens, shortest first. Where the shapes differ, the text
// must be of a kind that is listed here.
"use strict";
const { settles } = require("./sides.js");
const { BOX } = require("./draw.js");

// The tokens and the longest text of them. A piece of a matrix counts as one.
const FAMILIES = [
    ["a / ^ _ ( ) - sin sqrt frac , |", 4],
    ["a / ^ ( ) - sin sqrt", 5],
    ["a / ^ sin", 6],
    ["a / ^ _ + - pm sqrt sin", 4],
    ["a / ^ , ( ) |", 5],
    ["a / ^ | || (", 4],
    ["a ( ) ,", 8],
    ["a | , [ ] { } (a,a) [a,a] (a)", 4],
    ["a , [ ] (a,a) (f,a) (a,|,a) (|,a)", 5],
];

const MARK = /^[/^_|,]/;
const some = (items, holds) => items.some((node) => holds(node) || some(node.below, holds));
// whether there is a node of these names with such a one directly below it
const under = (names, holds) => (items) =>
    some(items, (node) => names.includes(node.name) && node.below.some((one, at) => holds(one, node, at)));
const SIGNED = ["signed", "ssigned"];
const FUNCTION = ["func", "sfunc"];
// the bytes that an operand begins with
const head = (node) => (node.name === "simple" ? head(node.below[0]) : node.left.bytes);
const last = (node, at) => at === node.below.length - 1;
// a function with scripts, or a function of one
const scripted = (node) => node.name === "func" && (node.script > 0 || scripted(node.below[0]));
// whether a token of the first form stands directly before one of the second
const next = (tokens, first, second) => tokens.some((token, at) => first.test(token) && second.test(tokens[at + 1] ?? ""));
const SIGN = /^(\+|-|pm)$/;

// A text is of the first kind that holds of its tree and its tokens; it may differ for another reason too. With each, what
// the library does, and so the original, and what ASCIIMathML.js does.
const KINDS = [
    {
        holds: (items, tokens) => tokens.includes("||"),
        ours: "`||` is a bracket of its own",
        theirs: "two bars: it has no such spelling",
    },
    {
        holds: (items) => some(items, (node) => node.name === "group" && node.left.len === 0),
        ours: "an unmatched closer closes a group of all before it, and a `/` `^` `_` behind it is a stray one",
        theirs: "the closer is a symbol, and numerator or base of what follows",
    },
    {
        holds: under(FUNCTION, (one, node, at) => last(node, at) && head(one) === ","),
        ours: "a function takes a `,` behind it as its argument, so a row that begins in `f,` makes no matrix",
        theirs: "the function stands alone, and `,` parts the cells",
    },
    {
        holds: (items, tokens) =>
            under([...SIGNED, ...FUNCTION], (one, node, at) => last(node, at) && MARK.test(head(one)))(items) || next(tokens, SIGN, /^\|$/),
        ours: "a prefixing sign or a function takes a `/` `^` `_` `|` or `,` behind it as its operand, if it is not its script",
        theirs: "the sign or the function stands alone, as a numerator, a base or an item",
    },
    {
        holds: (items, tokens) => next(tokens, /^[/^_]$/, SIGN),
        ours: "a sign behind `/` `^` `_` takes its operand, in a denominator with its scripts",
        theirs: "a minus takes its operand without scripts, any other sign takes none",
    },
    {
        holds: under(["frac"], (one, node, at) => at === 0 && one.name === "signed"),
        ours: "a prefixing sign stands in the numerator",
        theirs: "it stands before the fraction",
    },
    {
        holds: under(["frac"], scripted),
        ours: "a function with scripts stands in a fraction with its argument",
        theirs: "without it: the argument is the next item, or the numerator",
    },
    {
        holds: under(["func"], (one, node, at) => last(node, at) && one.script > 0),
        ours: "the script belongs to the function's argument",
        theirs: "to the function with its argument",
    },
    {
        holds: under(["unary", "binary", ...FUNCTION], (one) => SIGNED.includes(one.name)),
        ours: "a sign and its operand are one argument of a unary, a binary or a function",
        theirs: "the sign alone is the argument",
    },
    {
        holds: under(["unary", "binary"], (one) => one.name === "missing"),
        ours: "before a closer, the argument of a unary or binary is missing",
        theirs: "the spelling itself is drawn, and a binary's first argument is an item",
    },
    {
        holds: (items) => some(items, (node) => node.name === "matrix" && node.below.length === node.columns),
        ours: "one row of two cells or more is a matrix",
        theirs: "a row in brackets: a matrix has two rows or more",
    },
    {
        holds: (items) => some(items, (node) => node.name === "matrix" && node.lines > 0),
        ours: "columns of bars are column lines",
        theirs: "cells that hold a bar",
    },
];

// Rows within a row, and what is missing in one, are not told apart: outside the settled texts ASCIIMathML.js makes a row
// of a function and its argument, of a bar and of much else, and draws an empty symbol at the text's end.
function shape(element) {
    if (typeof element === "string") return element;
    const name = element[0];
    const missing = (one) => one[0] === "mo" && (one[1] === "" || one[1] === BOX);
    const below = element.slice(1).map(shape);
    if (!["mrow", "mtd", "msqrt", "text"].includes(name)) return [name, ...below.map((one) => (missing(one) ? ["mo", BOX] : one))];
    const row = below.flatMap((one) => (one[0] === "mrow" ? one.slice(1) : [one])).filter((one) => !missing(one));
    if (name !== "mrow" || row.length > 1) return [name, ...row];
    return row[0] ?? ["mo", BOX];
}

function* lists(tokens, length) {
    if (length === 0) yield [];
    else for (const list of lists(tokens, length - 1)) for (const token of tokens) yield [...list, token];
}

// The text without its blanks, if it has the same tokens.
function close(sides, list) {
    const read = sides.library([list.join(" "), list.join("")]);
    const [apart, together] = read.map(({ tokens }) => JSON.stringify(tokens.map(([, length, kind]) => [length, kind])));
    return list.join(apart === together ? "" : " ");
}

function beyond(sides) {
    const shapes = (elements) => JSON.stringify(shape(["text", ...elements]));
    const seen = new Set();
    const found = KINDS.map(() => ({ texts: 0, smallest: null }));
    const others = [];
    let count = 0;
    let differ = 0;
    for (const [alphabet, longest] of FAMILIES) {
        for (let length = 1; length <= longest; length++) {
            const made = [...lists(alphabet.split(" "), length)].filter((list) => !seen.has(list.join(" ")));
            const texts = made.map((list) => list.join(" "));
            texts.forEach((text) => seen.add(text));
            sides.library(texts).forEach((read, index) => {
                if (settles(read.tokens.map(([, , kind]) => kind))) return;
                count += 1;
                const [ours, theirs] = [shapes(sides.drawing.items(read.items)), shapes(sides.am.draw(texts[index]))];
                if (ours === theirs) return;
                differ += 1;
                const kind = KINDS.findIndex(({ holds }) => holds(read.items, made[index]));
                if (kind < 0) return others.push(`${texts[index]}\n  of the tree  ${ours}\n  of the text  ${theirs}`);
                const { smallest } = found[kind];
                found[kind].texts += 1;
                if (!smallest || texts[index].length < smallest.join(" ").length) found[kind].smallest = made[index];
            });
        }
    }
    KINDS.forEach(({ ours, theirs }, index) => {
        const { texts, smallest } = found[index];
        console.log(`${smallest && close(sides, smallest)}  (${texts} texts)\n  the library: ${ours}\n  ASCIIMathML.js: ${theirs}`);
    });
    others.slice(0, 10).forEach((one) => console.log(`of no kind: ${one}`));
    console.log(`${count} texts that the grammar does not settle, ${differ} with other shapes`);
    console.log(`${KINDS.length} kinds, ${others.length} texts of none`);
    return others.length === 0 && found.every(({ texts }) => texts > 0);
}

module.exports = { beyond };
