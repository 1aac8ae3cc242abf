// Every constant in every place of the grammar: the two sides differ exactly where left_out.js says.
"use strict";
const { settles } = require("./sides.js");
const { KINDS } = require("./texts.js");
const { UNKNOWN, NEVER, always, asArgument } = require("./left_out.js");

const BYTES = Array.from({ length: 128 }, (_, byte) => String.fromCharCode(byte));
const NUMBERS = ["0", "12", "1.5", ".5", "00.10", "1.", "12."];

// %: the constant. First where it is an argument, which loses its brackets; then where it is not.
const ARGUMENTS = ["x^ %", "x_ %", "x_ % ^y", "x_y^ %", "% /x", "x/ %"];
const OTHERS = ["%", "% ^2", "% _2", "% _2^3", "% ^2/x", "x/ % ^2", "x %", "% x"];

function places(sides) {
    const known = sides.rows.filter(([spelling]) => !UNKNOWN.includes(spelling) && !NEVER.includes(spelling));
    const of = (kind) => known.filter((row) => row[1] === kind).map(([spelling]) => spelling);
    const unaries = of(KINDS.Unary).filter((spelling) => spelling !== "text" && spelling !== "mbox");
    const binaries = of(KINDS.Binary);
    const pairs = of(KINDS.OpenBracket).flatMap((left) => of(KINDS.CloseBracket).map((right) => `${left} % ${right}`));
    const quoted = BYTES.filter((byte) => byte !== '"').flatMap((byte) => [`"${byte}"`, `"${byte}a"`, `"a${byte}"`]);
    const texts = [...quoted, '""', "text()", ...BYTES.flatMap((byte) => [`text(${byte})`, `mbox{${byte}}`, `text[a${byte}]`])];
    const symbols = known.filter(([, kind]) => kind >= 8 && kind <= 15).map(([spelling]) => spelling);
    const constants = [...new Set([...symbols, ...BYTES, ...NUMBERS, ...texts])].filter((one) => !NEVER.includes(one));
    const taken = [...ARGUMENTS, ...unaries.map((one) => `${one} %`), ...binaries.flatMap((one) => [`${one} % x`, `${one} x %`])];
    const others = [...OTHERS, ...unaries.map((one) => `${one}(% x)`), ...binaries.map((one) => `${one}(%)(x %)`)];
    const inside = pairs.flatMap((pair) => [pair, `x^${pair}`, `${pair}/x`, `x/${pair}`]);
    const all = [...taken.map((place) => [place, true]), ...[...others, ...inside].map((place) => [place, false])];
    let [count, differ, wrong] = [0, 0, 0];
    for (const [place, argument] of all) {
        const made = constants.map((one) => place.replaceAll("%", () => one));
        sides.library(made).forEach((read, index) => {
            if (!settles(read.tokens.map(([, , kind]) => kind))) return;
            const other = sides.drawn(read.items) !== sides.theirs(made[index]);
            count += 1;
            differ += other;
            if (other === (always(constants[index]) || (argument && asArgument(constants[index])))) return;
            wrong += 1;
            if (wrong <= 5) console.log(`${JSON.stringify(made[index])} is ${other ? "drawn otherwise" : "not drawn otherwise"}`);
        });
    }
    console.log(`${constants.length} constants in ${all.length} places: ${count} texts that the grammar settles`);
    console.log(`${differ} drawn otherwise, ${wrong} not as left_out.js says`);
    return wrong === 0;
}

module.exports = { places };
