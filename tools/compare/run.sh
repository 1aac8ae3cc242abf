#!/usr/bin/env bash
# Compare the library with the Rust original on many texts and token lists.
#
#   run.sh SRC [--library LIB] [--seed N] [--texts N] [--lists N]
#
# SRC is the Rust original, as for oracle/build.sh. LIB is the project's archive; without it the
# archive is proved and built here. N texts and N token lists are random, besides the fixed ones of
# tools/corpus.py. Exit status 1 on a difference. Not part of the gate.
set -euo pipefail
here=$(cd "$(dirname "$0")" && pwd)
options='library seed texts lists' library='' seed=1 texts=20000 lists=10000
source "$here/../comparison.sh"
"$here/../build.sh" compare "$src" "$library" "$out"

many_texts() {
    corpus --families $short --count $((texts / 16)) --max-length 150 --letters $((texts < 100000 ? 4 : 5))
    corpus --families $long --count $((texts / 128)) --max-length 4100
}
many_lists() {
    corpus --families kinds,full,lists,wild,bars,bracket_lists --count $((lists / 5)) --max-length 120
    corpus --families wild,bars,bracket_lists --count $((lists / 15)) --max-length 4096
}
"$out/compare" "$seed" <(many_texts) <(many_lists)
