#!/usr/bin/env bash
# Instructions a byte of both sides, counted by valgrind.
#
#   callgrind.sh SRC [LIB]
#
# SRC and LIB as for run.sh. Each text of a group is read once, after it was read once uncounted. The
# calls are those of calls.rs, but for `4,096` and the crate's tokens. Long clears and copies go by
# vector instructions here: of a `rep stos` or `rep movs` valgrind would count each byte.
set -euo pipefail
[ $# -eq 1 ] || [ $# -eq 2 ] || { echo "usage: callgrind.sh SRC [LIB]" >&2; exit 2; }
here=$(cd "$(dirname "$0")" && pwd)
src=$(cd "$1" && pwd)
source "$here/../library.sh"
library=$(archive "${2:-}")
out=$(mktemp -d)
trap 'rm -rf "$out"' EXIT
"$here/../build.sh" bench "$src" "$library" "$out"
export GLIBC_TUNABLES=glibc.cpu.x86_rep_stosb_threshold=1000000000:glibc.cpu.x86_rep_movsb_threshold=1000000000

# instructions CALL GROUP SIDE
instructions() {
    valgrind --tool=callgrind --toggle-collect=collected --callgrind-out-file=/dev/null \
        "$out/bench" "$here/texts.txt" "$@" 2>&1 | sed -n 's/.*Collected : \([0-9]*\).*/\1/p'
}
declare -A original # by what is called, as `parse` by several calls, and the group
{
    printf 'call\tgroup\tbytes\trust/B\tours/B\tratio\n'
    while IFS=$'\t' read -r call group bytes; do
        key="${call%%,*} $group"
        [ -n "${original[$key]:-}" ] || original[$key]=$(instructions "$call" "$group" original)
        ours=$(instructions "$call" "$group" ours)
        awk -v call="$call" -v group="$group" -v bytes="$bytes" -v original="${original[$key]}" -v ours="$ours" \
            'BEGIN { printf "%s\t%s\t%d\t%.1f\t%.1f\t%.2f\n", call, group, bytes, original / bytes, ours / bytes, ours / original }'
    done < <("$out/bench" "$here/texts.txt" names | grep -v -e ', 4,096' -e '^tokens, crate')
} | column -t -s "$(printf '\t')"
