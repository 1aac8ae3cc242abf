#!/usr/bin/env bash
# Make docs/gallery.html from docs/gallery-formulas.txt, with the project's own program.
#
#   gallery.sh [PROGRAM]
#
# PROGRAM is the program of `./read --mathml`; without it the one that ./read built. A picture of the page:
#   chromium --headless --no-sandbox --hide-scrollbars --window-size=1200,3920 --screenshot=docs/gallery.png docs/gallery.html
set -euo pipefail
[ $# -le 1 ] || { echo "usage: gallery.sh [PROGRAM]" >&2; exit 2; }
root=$(cd "$(dirname "$0")/../.." && pwd)
program=${1:-$root/crates/read_mathml/out/read_mathml}
while IFS=$'\t' read -r text note; do
    printf '%s\t%s\t%s\n' "$text" "$note" "$(printf '%s' "$text" | "$program")"
done < "$root/docs/gallery-formulas.txt" |
    "$root/tools/mathml/page.py" --title "What candidates type, and what is read" > "$root/docs/gallery.html"
