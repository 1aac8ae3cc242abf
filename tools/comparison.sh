# shellcheck shell=bash
# The front of the comparisons' scripts, which source this file with their own arguments: SRC, then
# --NAME VALUE for the names in `options`, whose defaults are set before. Sets src, library (the
# archive; proved and built if it is not given) and out, a folder that goes away with the script.

usage() { sed -n 's/^#   run/usage: run/p' "$0" >&2; exit 2; }
[ -d "${1:-}" ] || usage
src=$(cd "$1" && pwd)
shift
while [ $# -ge 2 ]; do
    [[ $1 == --* && " $options " == *" ${1#--} "* ]] || usage
    printf -v "${1#--}" %s "$2"
    shift 2
done
[ $# -eq 0 ] || usage
source "$(dirname "${BASH_SOURCE[0]}")/library.sh"
library=$(archive "$library")
out=$(mktemp -d)
trap 'rm -rf "$out"' EXIT

# texts, or token lists, of tools/corpus.py
corpus() { python3 "$(dirname "${BASH_SOURCE[0]}")/corpus.py" "$src/tokenizer.rs" --seed "$seed" "$@"; }
# families of short texts
short=spellings,blanks,numbers,quotes,commands,bytes,soup,matrices,expressions,short,deep,all,answers,takes,brackets
# families of long ones
long=limits,soup,matrices,expressions,deep,nested,takes,brackets
