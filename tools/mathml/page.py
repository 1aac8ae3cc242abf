#!/usr/bin/env python3
"""Write an HTML page of formulas: what is typed, how it looks, what it shows.

    page.py [--title TITLE] < lines > page.html

Each line is `text<TAB>note<TAB>mathml`. The MathML stands in the page as it is. The script is for Chromium, which
draws neither column lines nor menclose, stretches bars in few fonts and draws `-` as a hyphen; other browsers
need nothing.
"""

import argparse
import html
import sys

PAGE = """<!DOCTYPE html>
<html lang="en">
<head>
<meta charset="utf-8">
<meta name="viewport" content="width=device-width">
<title>{title}</title>
<style>
body {{ margin: 2rem auto; max-width: 75rem; padding: 0 1rem; font: 15px/1.45 "DejaVu Sans", Verdana, sans-serif; color: #222; background: #fff }}
h1 {{ font-weight: normal }}
table.formulas {{ border-collapse: collapse; table-layout: fixed; width: 100% }}
table.formulas > * > tr > * {{ border-top: 1px solid #ddd; padding: .6rem .8rem; text-align: left; vertical-align: middle }}
table.formulas th {{ border-top: none; font-weight: normal; color: #777 }}
th:nth-child(1) {{ width: 33% }}
th:nth-child(3) {{ width: 28% }}
td.typed code {{ font: 14px/1.4 "DejaVu Sans Mono", monospace; white-space: pre-wrap; overflow-wrap: anywhere }}
td.note {{ color: #555; font-size: 13px }}
math {{ font-family: "TeX Gyre Pagella Math", "TeX Gyre Termes Math", "Latin Modern Math", "STIX Two Math", "Cambria Math", math; font-size: 1.35em; margin: 0 }}
math[display="block"] {{ width: max-content }}
</style>
</head>
<body>
<h1>{title}</h1>
<table class="formulas">
<thead><tr><th>typed</th><th>read</th><th>what it shows</th></tr></thead>
<tbody>
{rows}
</tbody>
</table>
<script>
// what Chromium leaves out: column lines, menclose, bars as long as what they stand at, and `-` drawn as a minus
if (navigator.userAgent.includes("Chrome")) {{
  for (const table of document.querySelectorAll("mtable[columnlines]")) {{
    const lines = table.getAttribute("columnlines").split(" ");
    for (const row of table.children)
      [...row.children].forEach((cell, at) => {{ if (lines[at] == "solid") cell.style.borderRight = "1px solid"; }});
  }}
  for (const struck of document.querySelectorAll('menclose[notation="updiagonalstrike"]'))
    struck.style.background = "linear-gradient(to bottom right, transparent calc(50% - 1px), currentColor calc(50% - .5px), currentColor calc(50% + .5px), transparent calc(50% + 1px))";
  for (const mark of document.querySelectorAll("mover[accent] > mo:last-child, munder[accentunder] > mo:last-child")) {{
    const side = {{ "\u203e": "Top", "_": "Bottom" }}[mark.textContent], base = mark.previousElementSibling;
    if (!side) continue;
    mark.style.visibility = "hidden";
    base.style["border" + side] = "1px solid";
    base.style["padding" + side] = "2px";
  }}
  for (const sign of document.querySelectorAll("mo"))
    if (sign.textContent == "-") sign.textContent = "\u2212";
}}
</script>
</body>
</html>
"""


def row_of(line):
    text, note, mathml = line.rstrip("\n").split("\t")
    typed = html.escape(text)
    return f'<tr><td class="typed"><code>{typed}</code></td><td>{mathml}</td><td class="note">{html.escape(note)}</td></tr>'


def main():
    parser = argparse.ArgumentParser(description=__doc__.splitlines()[0])
    parser.add_argument("--title", default="Formulas as they are typed and read")
    args = parser.parse_args()
    sys.stdin.reconfigure(encoding="utf-8")
    sys.stdout.reconfigure(encoding="utf-8")
    rows = [row_of(line) for line in sys.stdin]
    sys.stdout.write(PAGE.format(title=html.escape(args.title), rows="\n".join(rows)))


main()
