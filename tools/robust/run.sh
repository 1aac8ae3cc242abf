#!/usr/bin/env bash
# Call the library where a wrong step would show, and measure the stack that it needs.
#
#   run.sh [LIB]
#
# LIB is the project's archive; without it the archive is proved and built here. Buffers stand between
# closed pages; a part runs again under valgrind, with buffers that nothing was written to; stack is
# measured on the deepest texts. Then the program `read`, if it is built, gets strange input.
set -euo pipefail
[ $# -le 1 ] || { echo "usage: run.sh [LIB]" >&2; exit 2; }
here=$(cd "$(dirname "$0")" && pwd)
root=$(cd "$here/../.." && pwd)
source "$root/tools/library.sh"
library=$(archive "${1:-}")
out=$(mktemp -d)
trap 'rm -rf "$out"' EXIT
gcc -std=c11 -O2 -g -Wall -Wextra "$here/robust.c" "$library" -pthread -o "$out/robust"

corpus() { python3 "$root/tools/corpus.py" "$root/crates/lexing/specs/Spellings.antt" "$@"; }
# part N: each N-th line
part() { awk -v n="$1" 'NR % n == 0'; }
{
    corpus --count 50
    corpus --families limits,deep,nested,takes,soup,matrices,brackets --count 100 --max-length 4100 | part 3
    corpus --families full,lists,wild,bars,bracket_lists --count 200 --max-length 4000
} > "$out/cases"
"$out/robust" guard 5000 < "$out/cases"
if command -v valgrind > /dev/null; then
    part 400 < "$out/cases" |
        valgrind --quiet --error-exitcode=3 --leak-check=full "$out/robust" plain 20
    echo "valgrind: no error"
else
    echo "valgrind is not here: not run"
fi
corpus --families nested --count 500 --max-length 4096 | "$out/robust" stack
"$here/frames.py" "$library"

program=$root/crates/read/out/read
[ -x "$program" ] || { echo "the program read is not built: not run"; exit 0; }

# said NAME STATUS LINE: the program must have ended with status 0 and printed this line first
said() {
    local line
    line=$(cat "$out/got" "$out/err" | head -c 80 | head -n 1 | tr -c '[:print:]\n' '?')
    echo "read, $1: status $2, $line"
    if [ "$2" -ne 0 ] || [ "$line" != "$3" ]; then
        echo "read, $1: not status 0, $3" >&2
        exit 1
    fi
}
# run NAME LINE: the program on its standard input
run() {
    local status=0
    timeout 60 "$program" > "$out/got" 2> "$out/err" || status=$?
    said "$1" $status "$2"
}
blank='text=0 tokens=0 takes=0 items=0'
run "no bytes" "$blank" < /dev/null
printf 'x^2/3' | run "x^2/3" 'text=5 tokens=5 takes=7 items=1'
{ printf 'x^'; sleep 0.2; printf '2/3'; } | run "x^2/3 in two pieces" 'text=5 tokens=5 takes=7 items=1'
printf '%0500d' 0 | run "500 bytes" 'text=500 tokens=1 takes=2 items=1'
printf '%0501d' 0 | run "501 bytes" 'refused=1'
printf '\177ELF\002\001\200\000' | run "binary" 'refused=2'
{ head -c 100000000 /dev/zero || true; } | run "100 million bytes" 'refused=1'
printf '%0.s(' {1..500} | run "500 brackets" 'text=500 tokens=500 takes=2116 items=1'
run "a folder" "read: can't read the input: Is a directory (os error 21)" < "$out"
status=0
timeout 60 "$program" <&- > "$out/got" 2> "$out/err" || status=$?
said "closed input" $status "read: can't read the input: Bad file descriptor (os error 9)"
: > "$out/got"
status=0
printf 'x' | timeout 60 "$program" > /dev/full 2> "$out/err" || status=$?
said "no room for output" $status "read: can't write the answer: No space left on device (os error 28)"
status=0
printf 'x' | timeout 60 "$program" >&- 2> "$out/err" || status=$?
said "closed output" $status "read: can't write the answer: Bad file descriptor (os error 9)"
