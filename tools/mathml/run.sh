#!/usr/bin/env bash
# Compare the library's MathML with that of writer.rs, written from the rules over the Rust original's tree.
#
#   run.sh SRC [--library LIB] [--seed N] [--texts N] [--answers FILE]
#
# SRC is the Rust original, as for oracle/build.sh. LIB is the project's archive; without it the archive is
# proved and built here. N texts are random, besides the fixed ones of tools/corpus.py and texts.py. FILE
# gets every text and answer, and check_xml.py reads it. First the page of examples is replayed through
# writer.rs, if it is there. Exit status 1 on a difference. Not part of the gate.
set -euo pipefail
here=$(cd "$(dirname "$0")" && pwd)
options='library seed texts answers' library='' seed=1 texts=20000 answers=''
source "$here/../comparison.sh"
"$here/build.sh" "$src" "$out"
"$here/build.sh" "$src" "$out" "$library"

page=$here/../../docs/mathml-examples.txt
if [ -f "$page" ]; then "$out/examples" "$page"; fi

many_texts() {
    corpus --families strings,examples,$short --count $((texts / 32)) --max-length 150
    corpus --families $long --count $((texts / 256)) --max-length 4100
    python3 "$here/texts.py" "$src/tokenizer.rs" --seed "$seed" --count $((texts / 2))
    python3 "$here/texts.py" "$src/tokenizer.rs" --seed "$seed long" --count $((texts / 64)) --max-length 4096 | tail -n $((texts / 64))
}
"$out/compare" "$seed" <(many_texts) ${answers:+"$answers"}
if [ -n "$answers" ]; then python3 "$here/check_xml.py" "$answers"; fi
