#!/usr/bin/env bash
# Build the Rust original, to compare with.
#
#   build.sh SRC OUT
#
# SRC holds tokenizer.rs, parse.rs, tree.rs and prefix_map/hash.rs of asciimath-parser, commit
# d19631f642. OUT gets
#   plain/libasciimath_parser.rlib      the original as it is
#   counting/libasciimath_parser.rlib   the original with a counter of takes and a log of pairs
#   oracle                              the program of oracle.rs, with both
# and the stand-ins for the two crates that the original uses.
set -euo pipefail
[ $# -eq 2 ] || { echo "usage: build.sh SRC OUT" >&2; exit 2; }
here=$(cd "$(dirname "$0")" && pwd)
src=$(cd "$1" && pwd)
mkdir -p "$2"
out=$(cd "$2" && pwd)

(cd "$src" && sha256sum --check --quiet --strict "$here/SHA256SUMS")

compile() { rustc --edition 2024 -C opt-level=3 -C codegen-units=1 "$@"; }

for crate in rustc_hash unicode_segmentation; do
    compile --crate-type rlib --crate-name "$crate" "$here/$crate.rs" --out-dir "$out"
done

# original NAME [FLAGS..]: the crate of OUT/NAME/src, into OUT/NAME
original() {
    compile --crate-type rlib --crate-name asciimath_parser --check-cfg 'cfg(counting)' "${@:2}" \
        --extern rustc_hash="$out/librustc_hash.rlib" \
        --extern unicode_segmentation="$out/libunicode_segmentation.rlib" \
        "$out/$1/src/lib.rs" --out-dir "$out/$1"
}

for name in plain counting; do
    mkdir -p "$out/$name/src/prefix_map"
    cp "$src"/{tokenizer,parse,tree}.rs "$here"/{lib,pairs,takes}.rs "$out/$name/src/"
    cp "$src/prefix_map/hash.rs" "$out/$name/src/prefix_map/"
    cp "$here/prefix_map.rs" "$out/$name/src/prefix_map/mod.rs"
done

python3 - "$out/counting/src/parse.rs" <<'PY'
import sys

take = " crate::takes::add();"
length = " let pairs = crate::pairs::length();"
cut = "crate::pairs::cut(pairs); "
pair = "crate::pairs::add({}, self.pos - 1); ".format

# what stands before, what is put in, what stands behind
places = [
    ("if item.is_some() {\n            self.pos += 1;", take, ""),
    ("self.pos += 1;", take, "\n            let (row_open,"),
    # a row
    ("}?;", " let row_index = self.pos - 1;", "\n        let mut len = 1;"),
    ("=> ", "{ " + pair("row_index"), "return Some((open, len, close)),"),
    ("return Some((open, len, close))", " }", ","),
    # a matrix, or one given back
    ("let mark = self.pos;", length, "\n        let matrix = self.next_matrix_rows()"),
    ("", pair("open_index"), "Matrix::new("),
    ("", cut, "self.failed_matrices.insert("),
    # a group
    ("-> Group<'a> {", " let open_index = self.pos - 1;", ""),
    ("self.advance() {\n            ", pair("open_index"), "bracket\n"),
    # a pair of bars, or one given back
    ("let open_index = mark - 1;", length, ""),
    ("", pair("open_index"), "Simple::Group(Group::new(open, "),
    ("", cut, "self.failed_opens.insert("),
]
path = sys.argv[1]
with open(path, encoding="utf-8") as file:
    text = file.read()
for before, added, after in places:
    if text.count(before + after) != 1:
        sys.exit(f"{path}: not there exactly once:\n{before + after}")
    text = text.replace(before + after, before + added + after)
if text.count("self.pos += 1;\n") != 0:
    sys.exit(f"{path}: a step without a count is left")
with open(path, "w", encoding="utf-8") as file:
    file.write(text)
PY

original plain
original counting --cfg counting
compile --crate-name oracle -L "$out" \
    --extern asciimath_parser="$out/counting/libasciimath_parser.rlib" \
    "$here/oracle.rs" -o "$out/oracle"
