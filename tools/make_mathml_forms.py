#!/usr/bin/env python3
# Writes src/forms.rt of crates/mathml_forms, and the answers of its two functions (proofs/forms), from the table of
# crates/mathml_rules/specs/Forms.antt. Run in the repository: python3 tools/make_mathml_forms.py && cd crates/mathml_forms && rt fmt
import os
import re

TABLE = "crates/mathml_rules/specs/Forms.antt"
CRATE = os.environ.get("OUT", "crates/mathml_forms")
QUOTED = r'"((?:[^"\\]|\\.)*)"'


def plain(text):
    text = re.sub(r"\\u\{([0-9a-f]+)\}", lambda m: chr(int(m[1], 16)), text)
    return re.sub(r"\\(.)", r"\1", text)


def key_of(spelling):
    key = 1
    for byte in reversed(spelling.encode()):
        key = 128 * key + byte
    return key


def word_of(form):
    return int.from_bytes(b"\1" + form.encode(), "big")


def write(path, text):
    path = os.path.join(CRATE, path)
    os.makedirs(os.path.dirname(path), exist_ok=True)
    with open(path, "w") as f:
        f.write(text)


rows = []
for line in open(TABLE):
    m = re.match(r"    drawn " + QUOTED + " " + QUOTED + " ∷$", line)
    if m:
        rows.append((plain(m[1]), plain(m[2])))
short = [(s, f) for s, f in rows if len(s) <= 9]
long = [(s, f) for s, f in rows if len(s) > 9]


def arm(spelling, form):
    seen = form if form.isprintable() and form.strip() else "U+%04X" % ord(form[0]) if form else "nothing"
    if len(form) > 1:
        seen = ", ".join("U+%04X" % ord(c) for c in form)
    return "        %d => 0x%x, // %s as %s\n" % (key_of(spelling), word_of(form), spelling, seen)


src = """// The display forms by their spellings, each as one number: a form's bytes behind a 1, so that the empty form is 1; 0 is no form. The rows
// are written by tools/make_mathml_forms.py.
ghost use Rattle.std.specs.Prelude.{◌≡◌};
ghost use Rattle.mathml_forms.specs.Words.{form_word, key_word};

use crate::equal::same_bytes;
use crate::key::key_of;

const MOST_WITH_KEY: usize = 9;

fn short_word(key: u64) -> u64
    ensures { result ≡ key_word key }
{
    match key {
"""
src += "".join(arm(s, f) for s, f in short)
src += """        _ => 0,
    }
}

pub fn form_word(s: &[u8]) -> u64
    ensures { result ≡ form_word s.now }
{
    if s.len() <= MOST_WITH_KEY {
        return short_word(key_of(s));
    }
"""
for s, f in long:
    src += '    if same_bytes(s, b"%s") {\n        return 0x%x; // %s\n    }\n' % (s, word_of(f), f)
src += """    0
}
"""
write("src/forms.rt", src)
print(len(short), "rows with a key,", len(long), "without")

P = "Rattle.mathml_forms.proofs"


def head(comment, uses, fn):
    lines = uses + ["%s.forms.%s.Goals as goal" % (P, fn)]
    return "-- %s Written by tools/make_mathml_forms.py.\n" % comment + "".join("use %s\n" % u for u in lines)


def answer(name, proof, unfolding):
    opened = "unfolding %s\n" % unfolding if unfolding else ""
    return "\npub %s : goal.%s\n%s%s c = %s\n" % (name, name, opened, name, proof)


def nth(name, k):
    return name if k == 1 else "%s-%d" % (name, k)


text = head(
    "Each arm is the table's row of its key, by computing; a key of no arm is that of no row with a form.",
    [
        "Rattle.mathml_rules.specs.Utf8.{encoded, utf8}",
        "Rattle.mathml_rules.specs.Forms.{forms}",
        "Rattle.mathml_forms.specs.Keys.{key, ascii, key_of}",
        "Rattle.mathml_forms.specs.Words.{packed, key_word_by, key_word}",
        P + ".Words.{NoRow, no_row}",
    ],
    "short_word",
)
for spelling, _ in short:
    k = key_of(spelling)
    text += answer("returns-in-%d" % k, "rw c.in-%d.is" % k, "key_word key_word_by forms key_of key ascii packed utf8 encoded")
text += answer("returns-in_default", "no_row _ c.in_default.in_default-own.rest", "NoRow forms key_of key ascii utf8 encoded")
write("proofs/forms/short_word/Answers.antt", text)

text = head(
    "A short text by its key; a longer one is compared with each long spelling that has a form.",
    [
        "mathlib.Core.Path.{◌≡◌, refl, sym, ap, ◌∙◌}",
        "Rattle.tokens.specs.Bytes.{bytes, same}",
        "Rattle.mathml_rules.specs.Utf8.{encoded, utf8}",
        "Rattle.mathml_rules.specs.Forms.{forms}",
        "Rattle.mathml_forms.specs.Words.{packed, form_word_by, form_word, key_word}",
        P + ".Words.{long, short-is, is_row, no_long}",
    ],
    "form_word",
)
for k, (spelling, form) in enumerate(long, 1):
    text += '\nword-%d : %d ≡ form_word (bytes "%s")\n' % (k, word_of(form), spelling)
    text += "unfolding form_word form_word_by forms same packed utf8 encoded\nword-%d = refl\n" % k
brief = "s-le-MOST_WITH_KEY"
text += answer(
    "returns-then-" + brief,
    "c.short_word.ensures ∙ ap key_word c.key_of.ensures ∙ sym (short-is _ c.if-%s.true)" % brief,
    "",
)
facts = "tt"
for k in range(1, len(long) + 1):
    call = nth("same_bytes", k)
    text += answer("returns-then-" + call, "is_row _ _ word-%d c.%s.ensures c.if-%s.true" % (k, call, call), "")
for k in range(len(long), 0, -1):
    call = nth("same_bytes", k)
    facts = "(sym c.%s.ensures ∙ c.if-%s.false, %s)" % (call, call, facts)
text += answer("returns", "no_long _ c.if-%s.false\n    %s" % (brief, facts), "long forms")
write("proofs/forms/form_word/Answers.antt", text)
