#!/usr/bin/env bash
# See that check_xml.py finds what is broken; then plant faults in the library, one at a time, and see that the
# comparison finds each.
#
#   selftest.sh SRC [LIB]
#
# SRC and LIB as for run.sh.
set -euo pipefail
[ $# -eq 1 ] || [ $# -eq 2 ] || { echo "usage: selftest.sh SRC [LIB]" >&2; exit 2; }
here=$(cd "$(dirname "$0")" && pwd)
src=$(cd "$1" && pwd)
python3 "$here/check_xml.py" --selftest
source "$here/../library.sh"
library=$(archive "${2:-}")
out=$(mktemp -d)
trap 'rm -rf "$out"' EXIT
{
    python3 "$here/../corpus.py" "$src/tokenizer.rs" --families answers --count 100
    for text in '' 'root 2 x' '[(1,2,|,3),(4,5,|,6)]' 'a&b' 'f(g(x))' 'bb x' 'color(red)(x)' '[(|,a,b)]'; do
        printf %s "$text" | od -A n -t x1 | tr -d ' \n'
        echo
    done
    for _ in {1..20}; do echo 62622878; done
} > "$out/texts"
"$here/build.sh" "$src" "$out" "$library"
"$out/compare" 1 "$out/texts"
for fault in {1..21}; do
    objcopy --redefine-sym asciimath_mathml=right_mathml "$library" "$out/faulty.a"
    gcc -O1 -DFAULT="$fault" -c "$here/faults.c" -o "$out/faults.o"
    ar rs "$out/faulty.a" "$out/faults.o" 2> "$out/log"
    "$here/build.sh" "$src" "$out" "$out/faulty.a"
    if "$out/compare" 1 "$out/texts" > "$out/said"; then
        echo "fault $fault was not found" >&2
        exit 1
    fi
    echo "fault $fault: $(sed -n 2,3p "$out/said" | tr -s '\n ' ' ')"
done
