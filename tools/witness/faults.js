// Wrong shapes to plant in the library's tree. Each changes the first place that it finds, and says whether it found one.
"use strict";

// The rows of items, from the root's down, and all nodes.
function* rows(items) {
    yield items;
    for (const node of nodes(items)) if (node.name === "group") yield node.below;
}
function* nodes(items) {
    for (const node of items) {
        yield node;
        yield* nodes(node.below);
    }
}

const NONE = { at: 0, len: 0, bytes: "" };
const simple = (...below) => ({ name: "simple", left: NONE, script: 0, right: NONE, below });
const bare = (node) => node?.name === "simple" && node.script === 0;

function first(all, change) {
    for (const one of all) if (change(one)) return true;
    return false;
}
const inNode = (change) => (items) => first(nodes(items), change);
// at each place of each row
const inRow = (change) => (items) => first(rows(items), (row) => first(row.keys(), (at) => change(row, at)));

const FAULTS = [
    { what: "sub and super exchanged", plant: inNode((node) => node.script === 3 && (node.below.push(node.below.splice(1, 1)[0]), true)) },
    { what: "a sub read as a super", plant: inNode((node) => node.script === 1 && ((node.script = 2), true)) },
    {
        what: "the denominator's script taken off and put on the fraction",
        plant: inRow((row, at) => {
            const below = row[at].name === "frac" && row[at].below[1];
            if (!below || below.script !== 2) return false;
            const script = below.below.pop();
            below.script = 0;
            row[at] = { ...simple(simple(row[at]), script), script: 2 };
            row[at].below[0] = { ...row[at].below[0], name: "group", below: [{ name: "frac", below: row[at].below[0].below[0].below }] };
            return true;
        }),
    },
    {
        what: "a unary's argument of two",
        plant: inRow((row, at) => {
            const unary = bare(row[at]) && row[at].below[0].name === "unary" && row[at].below[0];
            if (!unary || !bare(row[at + 1])) return false;
            unary.below = [{ ...simple(simple(unary.below[0]), row[at + 1]), name: "group" }];
            row.splice(at + 1, 1);
            return true;
        }),
    },
    {
        what: "a script read into a unary's argument",
        plant: inNode((node) => {
            const unary = node.script === 2 && node.below[0].name === "unary" && node.below[0];
            if (!unary) return false;
            unary.below = [{ ...simple({ ...simple(unary.below[0], node.below.pop()), script: 2 }), name: "group" }];
            node.script = 0;
            return true;
        }),
    },
    { what: "a binary's arguments exchanged", plant: inNode((node) => node.name === "binary" && (node.below.reverse(), true)) },
    {
        what: "a bracket closed one item early",
        plant: inRow((row, at) => {
            const group = bare(row[at]) && row[at].below[0].name === "group" && row[at].below[0];
            if (!group || group.below.length < 2) return false;
            row.splice(at + 1, 0, group.below.pop());
            return true;
        }),
    },
    {
        what: "a numerator that takes the item before it along",
        plant: inRow((row, at) => {
            if (at === 0 || row[at].name !== "frac" || row[at - 1].name === "frac") return false;
            row[at].below[0] = simple({ ...simple(row[at - 1], row[at].below[0]), name: "group" });
            row.splice(at - 1, 1);
            return true;
        }),
    },
    { what: "the fraction left out", plant: inRow((row, at) => row[at].name === "frac" && (row.splice(at, 1, ...row[at].below), true)) },
    { what: "an item lost", plant: inRow((row, at) => at > 0 && (row.splice(at, 1), true)) },
    { what: "two items exchanged", plant: inRow((row, at) => at > 0 && (row.splice(at - 1, 2, row[at], row[at - 1]), true)) },
    {
        what: "a bracket left out",
        plant: inRow((row, at) => {
            const group = bare(row[at]) && row[at].below[0];
            return group && group.name === "group" && (row.splice(at, 1, ...group.below), true);
        }),
    },
];

module.exports = { FAULTS };
