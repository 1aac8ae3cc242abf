#!/usr/bin/env bash
# Build a program that has the Rust original and the project's archive in one process, as OUT/NAME.
#
#   build.sh NAME SRC LIB OUT [FLAGS..]
#
# NAME is `compare`, which takes the original with a counter of takes, or `bench`, which takes it as it
# is. SRC is the Rust original, as for oracle/build.sh; LIB is the archive. FLAGS are more of rustc's, for
# the program alone.
set -euo pipefail
[ $# -ge 4 ] || { echo "usage: build.sh NAME SRC LIB OUT [FLAGS..]" >&2; exit 2; }
here=$(cd "$(dirname "$0")" && pwd)
name=$1
out=$4
case $name in
    compare) original=$out/counting ;;
    bench) original=$out/plain ;;
    *) echo "build.sh: no program $name" >&2; exit 2 ;;
esac
[ -d "$original" ] || "$here/oracle/build.sh" "$2" "$out"
cp "$3" "$out/libasciimath.a"

compile() { rustc --edition 2024 -C opt-level=3 -C codegen-units=1 -g -L native="$out" "$@"; }
compile --crate-type rlib --crate-name asciimath -l static=asciimath \
    "$here/../bindings/rust/src/lib.rs" --out-dir "$out"
compile --crate-name "$name" -L "$out" --extern asciimath="$out/libasciimath.rlib" \
    --extern asciimath_parser="$original/libasciimath_parser.rlib" \
    "${@:5}" "$here/$name/main.rs" -o "$out/$name"
