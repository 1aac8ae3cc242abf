#!/usr/bin/env bash
# Time both sides in one process, in several processes, and draw the ratios.
#
#   run.sh SRC [LIB [SVG]]
#
# SRC is the Rust original, as for oracle/build.sh. LIB is the project's archive; without it the
# archive is proved and built here. SVG is docs/bench.svg if it is not given. Some five minutes.
#
# Where functions and the stack happen to lie changes the times of both sides, so each process has
# another order of functions, which the linker of rustc 1.90 or later shuffles by the process's seed,
# and another length of the environment. The seed also decides the order of the texts.
set -euo pipefail
[[ $# -ge 1 && $# -le 3 ]] || { echo "usage: run.sh SRC [LIB [SVG]]" >&2; exit 2; }
here=$(cd "$(dirname "$0")" && pwd)
root=$(cd "$here/../.." && pwd)
src=$(cd "$1" && pwd)
source "$root/tools/library.sh"
library=$(archive "${2:-}")
svg=${3:-$root/docs/bench.svg}
out=$(mktemp -d)
trap 'rm -rf "$out"' EXIT
seeds=(1 2 3 4 5 6 7)

for seed in "${seeds[@]}"; do
    "$root/tools/build.sh" bench "$src" "$library" "$out" -C link-arg="-Wl,--shuffle-sections=.text*=$seed"
    mv "$out/bench" "$out/bench$seed"
done

# the answers, whole, and takes and closers, which the timed original doesn't tell
"$root/tools/build.sh" compare "$src" "$library" "$out"
for kind in texts lists; do "$out/bench1" "$here/texts.txt" "$kind" > "$out/$kind"; done
"$out/compare" 1 "$out/texts" "$out/lists"

# malloc keeps what it has: it gives no memory back to the system and maps no block by itself. Where it
# does, it moves its limits by what was freed before, and the original's times move with them.
export MALLOC_TRIM_THRESHOLD_=$((1 << 30)) MALLOC_TOP_PAD_=$((1 << 26)) MALLOC_MMAP_THRESHOLD_=$((1 << 25))
pin=(taskset -c "$(($(nproc) - 1))")
"${pin[@]}" true 2> "$out/log" || pin=()
echo "$(sed -n 's/^model name.*: //p' /proc/cpuinfo | head -n 1), $(nproc) processors, load $(cut -d ' ' -f 1 /proc/loadavg); $(rustc --version)"
for seed in "${seeds[@]}"; do
    echo "process with seed $seed" >&2
    MORE=$(printf "%$((seed * 1016))s" '') "${pin[@]}" "$out/bench$seed" "$here/texts.txt" time "$seed" > "$out/table$seed"
done
echo "processes with the seeds ${seeds[*]}"
"$here/summary.py" "${seeds[@]/#/$out/table}" > "$out/summary"
column -t -s "$(printf '\t')" "$out/summary"
"$here/plot.py" < "$out/summary" > "$svg"
