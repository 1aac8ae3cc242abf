#!/usr/bin/env bash
# The library beside an earlier build of it: answers and time in one process, and instructions.
#
#   run.sh BEFORE [LIB]
#
# BEFORE is the archive of the earlier build, made in a checkout of it; its calls `parse` and
# `parse_tokens` must have today's signatures. LIB is the project's archive; without it the archive is proved and
# built here. Exit status 1 on a difference.
set -euo pipefail
[ $# -eq 1 ] || [ $# -eq 2 ] || { echo "usage: run.sh BEFORE [LIB]" >&2; exit 2; }
here=$(cd "$(dirname "$0")" && pwd)
root=$(cd "$here/../.." && pwd)
before=$(realpath "$1")
source "$root/tools/library.sh"
library=$(archive "${2:-}")
out=$(mktemp -d)
trap 'rm -rf "$out"' EXIT
nm -g --defined-only "$before" | sed -n 's/.* T asciimath_\(.*\)/asciimath_\1 before_\1/p' > "$out/names"
objcopy --redefine-syms="$out/names" "$before" "$out/before.a"
gcc -std=c11 -O2 -g -Wall -Wextra "$here/versions.c" "$out/before.a" "$library" -o "$out/versions"

corpus() { python3 "$root/tools/corpus.py" "$root/crates/lexing/specs/Spellings.antt" "$@"; }
{
    corpus --count 1000
    corpus --families limits,soup,matrices,expressions,deep,nested,takes --count 300 --max-length 4100
    corpus --families kinds,full,lists,wild,bars --count 3000
} | "$out/versions" same

# groups: lines `NAME<TAB>HEX`
groups() {
    python3 - "$root/tools/bench/texts.txt" << 'EOF'
import sys
answers = open(sys.argv[1]).read().splitlines()
long = lambda part: [(part * 4096)[:4096]]
matrix = lambda rows, row: ["[" + ",".join([row] * rows) + "]"]
groups = {
    "ordinary answers": answers,
    "long: answers": long(" ".join(answers) + " "),
    "long: brackets": long("("),
    "long: closers": long(")"),
    "long: pairs": long("()"),
    "long: bars": long("| "),
    "long: scripts": long("a_b^c"),
    "long: |x|": long("|x|+"),
    "long: matrices": long("[[1,2],[3,4]]"),
    "a bar, pairs": ["|x|" + "()" * 2046],
    "a bar, brackets": ["|x|" + "(" * 4093],
    "wide matrix": matrix(2, "[" + ",".join(["a"] * 500) + "]"),
    "tall matrix": matrix(400, "[a,a]"),
    "lined matrix": matrix(2, "[" + ",".join(["a", "|"] * 400) + "]"),
    "matrix of groups": matrix(20, "[" + ",".join(["(a)"] * 20) + "]"),
    "worst: |(": long("|("),
}
for name, texts in groups.items():
    for text in texts:
        print(name, text.encode().hex(), sep="\t")
EOF
}
groups > "$out/groups"
{
    printf 'group\tbytes\tbefore ns/B\tours ns/B\tratio\tlow\thigh\n'
    "$out/versions" time < "$out/groups"
} | column -t -s "$(printf '\t')"
command -v valgrind > /dev/null || { echo "valgrind is not here: instructions not counted"; exit 0; }
export GLIBC_TUNABLES=glibc.cpu.x86_rep_stosb_threshold=1000000000:glibc.cpu.x86_rep_movsb_threshold=1000000000
# instructions GROUP SIDE
instructions() {
    valgrind --tool=callgrind --toggle-collect=collected --callgrind-out-file=/dev/null \
        "$out/versions" once "$@" < "$out/groups" 2>&1 | sed -n 's/.*Collected : \([0-9]*\).*/\1/p'
}
{
    printf 'group\tinstructions before\tours\tratio\n'
    cut -f 1 "$out/groups" | uniq | while read -r group; do
        one=$(instructions "$group" before)
        other=$(instructions "$group" ours)
        awk -v group="$group" -v one="$one" -v other="$other" \
            'BEGIN { printf "%s\t%d\t%d\t%.3f\n", group, one, other, other / one }'
    done
} | column -t -s "$(printf '\t')"
