# shellcheck shell=bash
# The project's archive, for the scripts that source this file.

# archive [LIB]: prints the path of LIB; without it the archive is proved and built, and its path printed
archive() {
    if [ -n "${1:-}" ]; then
        realpath "$1"
        return
    fi
    local root said
    root=$(cd "$(dirname "${BASH_SOURCE[0]}")/.." && pwd)
    echo "rt lib, in crates/asciimath" >&2
    said=$(cd "$root/crates/asciimath" && rt lib 2>&1) || { printf '%s\n' "$said" >&2; return 1; }
    echo "$root/crates/asciimath/out/libasciimath.a"
}
