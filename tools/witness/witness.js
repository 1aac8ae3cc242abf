// The library beside ASCIIMathML.js; run.sh calls it.
//
//   witness.js PROGRAM SCRIPT ROWS (settled | told | selftest) SEED TEXTS
//   witness.js PROGRAM SCRIPT ROWS (places | beyond)
//
// PROGRAM is tree.c's, SCRIPT ASCIIMathML.js, ROWS the project's spellings as a list of [spelling, kind].
"use strict";
const { Sides } = require("./sides.js");
const { settled, selftest } = require("./settled.js");
const { places } = require("./places.js");
const { beyond } = require("./beyond.js");

const [program, script, rows, command, seed, texts] = process.argv.slice(2);
const told = (...args) => settled(...args, true);
const run = { settled, told, selftest, places, beyond }[command];
process.exitCode = run(new Sides(program, script, rows), seed, Number(texts)) ? 0 : 1;
