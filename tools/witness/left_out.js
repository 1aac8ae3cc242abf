// What is not compared, with the reason. Both lists are checked at each run: a spelling is in the first one exactly if
// ASCIIMathML.js has no symbol of its role, and each text of the second is settled and drawn otherwise.
"use strict";

const words = (text) => text.trim().split(/\s+/);

// Spellings of the project's table that ASCIIMathML.js does not have. It can be told them, with their role: then they are
// compared too, and only the role is taken on trust.
const UNKNOWN = words(`
    !-= !EE !sub !sube !sup !supe *** ->> /_\\ :' :|: <- <-> <== <==> ==> >-> >->> ><| Alpha Beta Chi Downarrow Epsi Epsilon Eta
    Iota Kappa Lamda Mu Nu Rho Tau Uparrow Upsilon Vartheta Zeta ast because bowtie dArr dag dagger ddag ddagger div ell
    enspace frown gg gt gt= hbar iiint iint lamda land ll lor ltimes mgt mlt notequiv notexists notsubset notsubseteq
    notsupset notsupseteq nsub nsubseteq nsup nsupseteq o- oiiint oiint ominus oslash prime rightarrowtail
    rightleftharpoons rtimes sim thinspace triangle twoheadrightarrow twoheadrightarrowtail uArr varkappa varpi varrho
    |>< |><|
    Abs abs bbcc bbfr bbit bbsf bbsfit cancel ceil floor it mathit norm obrace overarc overbrace overparen sfit tilde ubrace
    underbrace
    left( left[ |: :| right) right]`);

// Spellings that are compared in no case.
const NEVER = [
    // binaries that it does not have; of one that it is told it would draw the first argument only
    ...words("class color id overset underset"),
    // constants there: the known departure of floor and ceiling marks
    ...words("|__ __| |~ ~| lfloor rfloor lceiling rceiling"),
    // passed over there, so that LaTeX's names are read
    "\\",
];

// Places and tokens that the grammar settles and ASCIIMathML.js draws otherwise, each with its smallest input. The
// generator makes none of them.
const SETTLED = [
    ["x^or", "`or`, `and` or `if` as an argument stops it with an error: it looks for a bracket in the blank drawn before the word"],
    ['x^" "', "so does a text that begins or ends in a blank, as an argument"],
    ['x^"("', "and a text that is just an opening bracket: removed as a bracket, and nothing is left to look at"],
    ['x^")"', "a text that is just a closing bracket is removed as a bracket"],
    ["textx", "`text` and `mbox` without a bracket drop the next byte, where the grammar has unary S"],
    ["1.", "a point behind the digits is a symbol, not part of the number"],
    ['"', "a quote without a second one is an empty text, not a symbol"],
    ["\x01", "bytes 0 to 8 and 14 to 31 are blanks, not symbols"],
];

// The same of a constant as it is typed, without `text x`: those that are drawn otherwise in every place, and those that are
// as an argument.
const always = (typed) => /^([\0-\x08\x0e-\x1f"]|\d+\.)$/.test(typed);
const asArgument = (typed) => {
    const text = /^(?:"|(?:text|mbox)[([{])([^]*).$/.exec(typed)?.[1];
    return text === undefined ? ["or", "and", "if"].includes(typed) : /^([()[\]{}]| [^]*|[^]* )$/.test(text);
};

module.exports = { UNKNOWN, NEVER, SETTLED, always, asArgument };
