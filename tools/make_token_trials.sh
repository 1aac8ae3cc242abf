#!/usr/bin/env bash
# Make the texts and the Rust's answers that the program token_trials replays.
#
#   make_token_trials.sh SRC
#
# SRC holds the four files of the original (tools/oracle/build.sh). Writes crates/token_trials/stdin, the texts as lines of hex, and
# crates/token_trials/stdout, the Rust's tokens of each, with the rows of those that are read by a spelling (token_rows.py). Document 01's
# 'Strings to try' come first, in its order. The last texts are
# refused by document 01, and have no answer of the Rust's: 4,097 bytes, bytes of 128 and 255, and both faults at once, where the first
# number wins.
set -euo pipefail
[ $# -eq 1 ] || { echo "usage: make_token_trials.sh SRC" >&2; exit 2; }
root=$(cd "$(dirname "$0")/.." && pwd)
work=$(mktemp -d)
trap 'rm -rf "$work"' EXIT
"$root/tools/oracle/build.sh" "$1" "$work"

corpus() { python3 "$root/tools/corpus.py" "$root/crates/lexing/specs/Spellings.antt" --seed 1 "$@"; }
# sample FIRST STEP: the first lines, and of the rest each STEP-th
sample() { awk -v first="$1" -v step="$2" 'NR <= first || (NR - first) % step == 0'; }
{
    corpus --families strings,examples
    corpus --families spellings --count 0 | sample 429 7
    corpus --families blanks,numbers --count 50 --max-length 60
    corpus --families quotes --count 50 --max-length 60 | sample 0 3
    corpus --families commands --count 50 --max-length 60 | sample 0 7
    corpus --families bytes --count 300 --max-length 80 | sample 128 31
    corpus --families soup --count 300 --max-length 80
    corpus --families expressions,matrices --count 100 --max-length 80 | sample 0 30
    corpus --families bytes,soup --count 1 --max-length 4096 | tail -n 1
    printf '%08192d\n' 0 | sed 's/00/41/g'
} > "$work/texts"
"$work/oracle" tokens < "$work/texts" > "$work/tokens"
"$root/tools/token_rows.py" "$1/tokenizer.rs" "$work/texts" "$work/tokens" > "$work/answers"
{
    cat "$work/texts"
    printf '%08194d\n' 0 | sed 's/00/41/g'
    printf '4180\nff\n'
    printf '%08194d\n' 0 | sed 's/00/80/g'
} > "$root/crates/token_trials/stdin"
{ cat "$work/answers"; printf 'refused=1\nrefused=2\nrefused=2\nrefused=1\n'; } > "$root/crates/token_trials/stdout"
wc -l "$root/crates/token_trials/stdin" "$root/crates/token_trials/stdout"
