#!/usr/bin/env bash
# An outside witness of the grammar: ASCIIMathML.js reads the same texts, and gives the same shapes.
#
#   run.sh [LIB] [--seed N] [--texts N]
#
# LIB is the project's archive; without it the archive is proved and built here. ASCIIMathML.js is that of Debian's
# package libjs-asciimathml, or the file that the variable ASCIIMATHML names; it runs in node over a few lines of DOM.
#
# First faults are planted in the library's trees, and each must be found. Then N random texts that the grammar settles:
# tokens as they were meant, the tree their derivation, and what ASCIIMathML.js would draw of the tree (draw.js) is what it
# draws of the text, every element. Then as many with ASCIIMathML.js told the spellings that it does not know. Then every
# constant in every place, where the two differ exactly as left_out.js says, which has all that is left out. Last, short
# texts that the grammar does not settle, with the kinds of departures listed. Exit status 1 on a difference in a settled
# text, or one of a kind that is not listed. Not part of the gate.
set -euo pipefail
here=$(cd "$(dirname "$0")" && pwd)
usage() { sed -n 's/^#   run/usage: run/p' "$0" >&2; exit 2; }
library='' seed=1 texts=100000
case ${1:-} in '' | --*) ;; *) library=$1; shift ;; esac
while [ $# -ge 2 ]; do
    case $1 in --seed) seed=$2 ;; --texts) texts=$2 ;; *) usage ;; esac
    shift 2
done
[ $# -eq 0 ] || usage

script=${ASCIIMATHML:-/usr/share/javascript/asciimathtml/ASCIIMathML.js}
command -v node > /dev/null || { echo "node is not here: apt-get install nodejs" >&2; exit 2; }
[ -f "$script" ] || { echo "ASCIIMathML.js is not here: apt-get install libjs-asciimathml, or set ASCIIMATHML to its path" >&2; exit 2; }

source "$here/../library.sh"
library=$(archive "$library")
out=$(mktemp -d)
trap 'rm -rf "$out"' EXIT
gcc -std=c11 -O2 -Wall -Wextra "$here/tree.c" "$library" -o "$out/tree"
python3 -B - "$here/.." "$here/../../crates/lexing/specs/Spellings.antt" > "$out/rows" << 'END'
import json, sys
sys.path.insert(0, sys.argv[1])
from spellings import TOKENS, rows_of
print(json.dumps([(spelling, TOKENS.index(token)) for spelling, token in rows_of(sys.argv[2])]))
END
witness() { node "$here/witness.js" "$out/tree" "$script" "$out/rows" "$@"; }

echo "-- planted faults"
witness selftest "$seed" 2000
echo "-- texts that the grammar settles"
witness settled "$seed" "$texts"
echo "-- the same, told what it does not know"
witness told "$seed" "$texts"
echo "-- every constant in every place"
witness places
echo "-- texts that the grammar does not settle"
witness beyond
