#!/usr/bin/env bash
# See that the original's log of pairs gives the closers that are known, then plant faults in the library, one at a
# time, and see that the comparison finds each.
#
#   selftest.sh SRC [LIB]
#
# SRC and LIB as for run.sh.
set -euo pipefail
[ $# -eq 1 ] || [ $# -eq 2 ] || { echo "usage: selftest.sh SRC [LIB]" >&2; exit 2; }
here=$(cd "$(dirname "$0")" && pwd)
src=$(cd "$1" && pwd)
source "$here/../library.sh"
library=$(archive "${2:-}")
out=$(mktemp -d)
trap 'rm -rf "$out"' EXIT
"$here/../oracle/build.sh" "$src" "$out"
while read -r text closers; do
    said=$(printf %s "$text" | od -A n -t x1 | tr -d ' \n' | "$out/oracle" closers)
    echo "$text: $said"
    [ "$said" = "$closers" ] || { echo "the log gives $said, not $closers" >&2; exit 1; }
done <<'END'
[[1,2],[3,4]] 12 5 13 13 13 13 13 11 13 13 13 13 13
{(a|b,|c|,d)} 12 11 13 6 13 13 13 13 13 13 13 13 13
{(a,b),(c,d)} 12 5 13 13 13 13 13 11 13 13 13 13 13
(a 2 2
|x| 2 3 3
a)(b 4 4 4 4
[(|a,b)| 8 6 8 8 8 8 8 8
END
python3 "$here/../corpus.py" "$src/tokenizer.rs" --families answers --count 100 > "$out/texts"
for call in lookup parse closers closers_text; do echo "asciimath_$call right_$call"; done > "$out/names"
for fault in {1..20}; do
    objcopy --redefine-syms="$out/names" "$library" "$out/faulty.a"
    gcc -O1 -DFAULT="$fault" -c "$here/faults.c" -o "$out/faults.o"
    ar rs "$out/faulty.a" "$out/faults.o"
    "$here/../build.sh" compare "$src" "$out/faulty.a" "$out" 2> "$out/log"
    if "$out/compare" 1 "$out/texts" /dev/null > "$out/said"; then
        echo "fault $fault was not found" >&2
        exit 1
    fi
    echo "fault $fault: $(sed -n 2,3p "$out/said" | tr -s '\n ' ' ')"
done
