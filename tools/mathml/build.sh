#!/usr/bin/env bash
# Build the programs around writer.rs.
#
#   build.sh SRC OUT [LIB]
#
# SRC is the Rust original, as for oracle/build.sh. OUT gets `examples`, `answers` and, if LIB is given,
# `compare`, which is linked with it: the project's archive.
set -euo pipefail
[ $# -eq 2 ] || [ $# -eq 3 ] || { echo "usage: build.sh SRC OUT [LIB]" >&2; exit 2; }
here=$(cd "$(dirname "$0")" && pwd)
out=$2
[ -d "$out/plain" ] || "$here/../oracle/build.sh" "$1" "$out"

compile() {
    rustc --edition 2024 -C opt-level=3 -C codegen-units=1 -g -L "$out" \
        --extern asciimath_parser="$out/plain/libasciimath_parser.rlib" "$@"
}
if [ $# -eq 2 ]; then
    compile "$here/examples.rs" -o "$out/examples"
    compile "$here/answers.rs" -o "$out/answers"
else
    cp "$3" "$out/libasciimath.a"
    compile "$here/compare.rs" -L native="$out" -l static=asciimath -o "$out/compare"
fi
