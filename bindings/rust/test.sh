#!/usr/bin/env bash
# Build the bindings and test them.
#
#   test.sh
#
# ASCIIMATH_LIB_DIR is the folder of libasciimath.a; without it the archive is proved and built.
set -euo pipefail
cd "$(dirname "$0")"
source ../../tools/library.sh
if [ -z "${ASCIIMATH_LIB_DIR:-}" ]; then
    library=$(archive)
    export ASCIIMATH_LIB_DIR=${library%/*}
fi
cargo test --offline --quiet
