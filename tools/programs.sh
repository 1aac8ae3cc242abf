#!/usr/bin/env bash
# Run ./read and the programs under it where a read or a write fails, on refusals, and in every form of the call.
#
#   programs.sh [READ]
#
# READ is the script in a checkout; without it this checkout's. It builds the programs, if they are not built. Reads are cut short,
# interrupted and made to fail by a library that gcc builds and that is loaded before C's. Exit status 1 if a case is wrong. Not part of
# the gate.
set -euo pipefail
[ $# -le 1 ] || { echo "usage: programs.sh [READ]" >&2; exit 2; }
here=$(cd "$(dirname "$0")" && pwd)
read=$(realpath "${1:-$here/../read}")
crates=$(dirname "$read")/crates
out=$(mktemp -d)
trap 'rm -rf "$out"' EXIT
chmod 755 "$out"
cd "$out"

# builds, if need be
"$read" < /dev/null > built
"$read" --brackets < /dev/null > built
"$read" --mathml < /dev/null > built

# run CMD..: its print, what it says on standard error, and its status
run() {
    status=0
    timeout 60 "$@" > got 2> said || status=$?
}
cases=0 wrong=0
# check NAME TEST..: counts a case, and shows one that is wrong
check() {
    cases=$((cases + 1))
    "${@:2}" && return
    wrong=$((wrong + 1))
    echo "WRONG: $1: status $status, printed $(head -c 50 got | tr '\n' '|'), said $(head -c 150 said | tr '\n' '|')"
}
# What a case must have come to. An answer, with LINE among its lines:
answered() { [ $status -eq 0 ] && [ ! -s said ] && grep -qxF -- "$1" got; }
# a refusal, by its number:
refused() { [ $status -eq 1 ] && [ ! -s said ] && echo "refused=$1" | cmp -s - got; }
# no print, and a line that says why:
failed() { [ $status -eq 2 ] && [ ! -s got ] && [ -s said ]; }
# the same of a program by itself, whose exit status is 0 even so:
silent() { [ $status -eq 0 ] && [ ! -s got ] && [ -s said ]; }
# no print, and the usage:
misused() { failed && grep -q '^usage:' said; }

cat > faults.c << 'EOF'
#include <errno.h>
#include <stdlib.h>
#include <string.h>
#include <sys/syscall.h>
#include <unistd.h>

long syscall(long number, ...);

// Standard input comes two bytes at a time, and each read is interrupted first. A broken one fails after four bytes.
ssize_t read(int fd, void *buf, size_t n) {
    static int turn;
    if (fd == 0) {
        if (turn++ % 2 == 0) { errno = EINTR; return -1; }
        if (turn > 4 && strcmp(getenv("FAULT"), "broken") == 0) { errno = EIO; return -1; }
        if (n > 2) n = 2;
    }
    return syscall(SYS_read, fd, buf, n);
}
EOF
gcc -shared -fPIC -O1 -Wall -Wextra faults.c -o faults.so
broken=(env FAULT=broken LD_PRELOAD="$out/faults.so")
interrupted=(env FAULT=interrupted LD_PRELOAD="$out/faults.so")

printf 'x^2/3' > text
cp text ./--text
: > empty
printf -v zeros '%0500d' 0
printf %s "$zeros" > longest
printf %s "${zeros}0" > longer
printf 'x\200' > byte
printf 'x\0y' > nul
printf 'x\n\n' > newlines
printf 'refused=1' > like
ln -s "$read" link

# by the form: a line of the answer for `x^2/3`, for the empty text, and for 500 zeros
math='<math xmlns="http://www.w3.org/1998/Math/MathML" display="block">'
declare -A line=([tree]='depth=0 node=frac' [--brackets]='x^2/3' [--html]='</html>'
    [--mathml]="$math<mfrac><msup><mi>x</mi><mn>2</mn></msup><mn>3</mn></mfrac></math>")
declare -A blank=([tree]='text=0 tokens=0 takes=0 items=0' [--brackets]='' [--html]='</html>' [--mathml]="$math</math>")
declare -A most=([tree]='text=500 tokens=1 takes=2 items=1' [--brackets]="$zeros" [--html]='</html>' [--mathml]="$math<mn>$zeros</mn></math>")

for form in tree --brackets --mathml --html; do
    call=("$read") name=./read
    [ $form = tree ] || call+=("$form") name+=" $form"
    run "${call[@]}" < text; check "$name, a text" answered "${line[$form]}"
    run "${call[@]}" < empty; check "$name, the empty text" answered "${blank[$form]}"
    run "${call[@]}" < longest; check "$name, 500 bytes" answered "${most[$form]}"
    run "${call[@]}" < longer; check "$name, 501 bytes" refused 1
    run "${call[@]}" < byte; check "$name, a byte above 127" refused 2
    run "${call[@]}" < .; check "$name, a folder" failed
    run "${call[@]}" <&-; check "$name, closed input" failed
    run "${broken[@]}" "${call[@]}" < text; check "$name, an input that breaks" failed
    run "${interrupted[@]}" "${call[@]}" < text; check "$name, an input in pieces, interrupted" answered "${line[$form]}"
    run bash -c '"$@" > /dev/full' - "${call[@]}" < text; check "$name, a full device" failed
    run bash -c '"$@" >&-' - "${call[@]}" < text; check "$name, closed output" failed
    run bash -c '"$@" > /dev/full' - "${call[@]}" < longer; check "$name, a refusal on a full device" failed
    run "${call[@]}" text; check "$name FILE" answered "${line[$form]}"
    run "${call[@]}" text <&-; check "$name FILE, closed input" answered "${line[$form]}"
    run "${call[@]}" -- --text; check "$name -- FILE" answered "${line[$form]}"
    run "${call[@]}" empty; check "$name FILE, the empty text" answered "${blank[$form]}"
    run "${call[@]}" longer; check "$name FILE, 501 bytes" refused 1
    run "${call[@]}" nothing; check "$name FILE, no such file" failed
    run "${call[@]}" ''; check "$name FILE, no name" failed
    run "${call[@]}" .; check "$name FILE, a folder" failed
    run "${call[@]}" text empty; check "$name, two files" misused
    run "${call[@]}" --text; check "$name, no such option" misused
    run ./link "${call[@]:1}" text; check "$name by a link" answered "${line[$form]}"
done
for form in -h --help; do
    run "$read" $form; check "./read $form" answered 'usage: ./read [--brackets | --mathml | --html] [--] [FILE]'
    run bash -c '"$@" > /dev/full' - "$read" $form; check "./read $form, a full device" failed
done
run "$read" newlines; check "./read, newlines at the end" answered 'text=3 tokens=2 takes=2 items=1'
run "$read" nul; check "./read, a byte 0" answered 'depth=1 node=operator at=1 len=1'
run "$read" --mathml nul; check "./read --mathml, a byte 0" refused 11
run "$read" --html nul; check "./read --html, a byte 0" refused 11
run "$read" --brackets like; check "./read --brackets, a text like a refusal" answered refused=1

# a file that may not be read: by another user, where this one may read all
as=()
[ "$(id -u)" -ne 0 ] || as=(setpriv --reuid 65534 --regid 65534 --clear-groups)
touch closed
chmod 0 closed
if "${as[@]}" test -x "$crates/read/out/read"; then
    run "${as[@]}" "$read" closed; check "./read FILE, one that may not be read" failed
else
    echo "not run, as another user can't reach the programs: a file that may not be read"
fi

for form in tree --brackets --mathml; do
    name=read${form/tree/}
    name=${name/--/_}
    program=$crates/$name/out/$name
    run "$program" < text; check "$name, a text" answered "${line[$form]}"
    run "$program" < .; check "$name, a folder" silent
    run "$program" <&-; check "$name, closed input" silent
    run "${broken[@]}" "$program" < text; check "$name, an input that breaks" silent
    run "${interrupted[@]}" "$program" < text; check "$name, an input in pieces, interrupted" answered "${line[$form]}"
    run bash -c '"$1" > /dev/full' - "$program" < text; check "$name, a full device" silent
    run bash -c '"$1" >&-' - "$program" < text; check "$name, closed output" silent
done

# a build by an rt of three crates, which fails at the third or is done
mkdir -p repo/crates/read bin
cp "$read" repo/read
printf 'other:\nlow:\nmiddle: low io\nread: low middle io\n' > repo/crates.txt
cat > bin/rt << 'EOF'
#!/bin/sh
exec >&2
for crate in low middle; do
    echo "fn $crate::one: proved"
    echo "crate $crate: modules loaded=1 checked=1"
    echo "logic=proved functions=1"
done
[ -n "$PROGRAM" ] || { echo "fn read::main: no proof: a fact is left"; echo "crate read: modules loaded=1 checked=1"; echo "logic=not-proved"; exit 1; }
echo "crate read: modules loaded=1 checked=1"
echo "logic=proved functions=1"
mkdir -p out && cp "$PROGRAM" out/read
EOF
chmod +x bin/rt
not_built() { failed && grep -qx 'read: 2 of 3: middle' said && grep -q 'no proof' said && grep -q 'build failed' said; }
built() { [ $status -eq 0 ] && grep -qx 'read: 3 of 3: read' said && grep -qx 'depth=0 node=frac' got; }
run env PATH="$out/bin:$PATH" PROGRAM= repo/read text; check "./read, a build that fails" not_built
run env PATH="$out/bin:$PATH" PROGRAM="$crates/read/out/read" repo/read text; check "./read, a build" built
run repo/read text; check "./read, built" answered "${line[tree]}"

echo "programs: $cases cases, $wrong wrong"
[ "$wrong" -eq 0 ]
