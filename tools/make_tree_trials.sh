#!/usr/bin/env bash
# Make the texts and token lists, with the Rust's answers, that the program tree_trials replays.
#
#   make_tree_trials.sh SRC
#
# SRC holds the four files of the original (tools/oracle/build.sh). Writes crates/tree_trials/stdin and crates/tree_trials/stdout.
# Document 01's 'Strings to try' come first, the 18 texts and the two token lists, in its order.
# The last lines are refused by document 01, and have no answer of the Rust's: 4,097 bytes, and a byte of 128.
set -euo pipefail
[ $# -eq 1 ] || { echo "usage: make_tree_trials.sh SRC" >&2; exit 2; }
root=$(cd "$(dirname "$0")/.." && pwd)
out=$root/crates/tree_trials
work=$(mktemp -d)
trap 'rm -rf "$work"' EXIT
"$root/tools/oracle/build.sh" "$1" "$work"

corpus() { python3 "$root/tools/corpus.py" "$root/crates/lexing/specs/Spellings.antt" --seed 2 "$@"; }
# each STEP: of the lines each STEP-th
each() { awk -v step="$1" 'NR % step == 1 % step'; }
# lines LISTS: `HEX a,b,c d,e,f` as `HEX:a,b,c,d,e,f,`
lines() { sed -e '/ /!s/$/:/' -e '/:$/!s/$/,/' -e 's/ /:/' -e 's/ /,/g' "$1"; }
# closed LINES: before each line `--` the next of the lines of closers, with a blank behind each number
closed() {
    awk -v lines=<(sed -e 's/[0-9]$/& /' -e 's/^panic$/refused=6/' "$1") \
        '/^--$/ { if ((getline line < lines) < 1) exit 1; print line } 1'
}
# the Rust's answers to texts and to lists
tree() { "$work/oracle" tree < "$1" | closed <("$work/oracle" closers < "$1"); }
words() { "$work/oracle" list < "$1" | python3 "$root/tools/tree_words.py" | closed <("$work/oracle" list_closers < "$1"); }

corpus --families strings > "$work/strings"
corpus --families string_lists > "$work/string_lists"

# texts, by the section of document 01 that they try
{
    # its other examples, and the deepest tree
    corpus --families examples
    # tokenizer.rs: spellings, blanks, numbers, quotes, `text`, single bytes
    corpus --families spellings --count 60 --max-length 40 | each 60
    corpus --families blanks,numbers --count 40 --max-length 40 | each 8
    corpus --families quotes --count 40 --max-length 40 | each 12
    corpus --families commands --count 60 --max-length 40 | each 40
    corpus --families bytes --count 60 --max-length 40 | each 120
    # parse.rs: every text of one or two pieces, and of three some; then mixtures
    corpus --families short --count 0 --pieces 2
    corpus --families short --count 200 --pieces 3 | each 25
    corpus --families soup --count 150 --max-length 40
    # matrices, sets, column lines; scripts, functions, signs, fractions
    corpus --families matrices --count 300 --max-length 60 | each 5
    corpus --families expressions --count 300 --max-length 60 | each 4
    # depth 256, unmatched closers, the memory of failed attempts
    corpus --families deep --count 40 --max-length 140 | each 24
    corpus --families deep --count 0 --max-length 600 | each 200
    # closers: bars over cells, attempts given back, brackets in brackets; where it is as deep as can be
    corpus --families brackets --count 0 --max-length 60 | awk 'NR <= 18 || NR % 47 == 0'
    corpus --families brackets --count 200 --max-length 60 | tail -n 150
    corpus --families brackets --count 0 --max-length 600 | awk 'length > 120' | each 120
} | awk '!seen[$0]++' | grep -vxFf "$work/strings" > "$work/texts"
{
    corpus --families lists --count 2700
    corpus --families bracket_lists --count 300 --max-length 60
} | awk '!seen[$0]++' > "$work/lists"

{
    cat "$work/strings"
    lines "$work/string_lists"
    cat "$work/texts"
    lines "$work/lists"
    printf '%08194d\n' 0 | sed 's/00/41/g'
    printf '4180\n'
} > "$out/stdin"
{
    tree "$work/strings"
    words "$work/string_lists"
    tree "$work/texts"
    words "$work/lists"
    printf 'refused=1\nrefused=1\n--\nrefused=2\nrefused=2\n--\n'
} > "$out/stdout"
wc -l "$work"/{strings,string_lists,texts,lists}
wc -c "$out/stdin" "$out/stdout"
