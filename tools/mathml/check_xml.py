#!/usr/bin/env python3
"""See that answers are MathML as section 7 of the rules (docs/MATHML.md) promises, by Python's XML parser.

    check_xml.py FILE..       each line is a text in lower-case hex, a tab, and its MathML, as run.sh --answers writes;
                              `refused=` and a number in the MathML's place is passed over
    check_xml.py --selftest   see that broken answers are found

Exit status 1 if an answer is not as promised.
"""

import re
import sys
from xml.etree import ElementTree

NAMESPACE = "http://www.w3.org/1998/Math/MathML"
# element: its attributes, each set with which it comes
ATTRIBUTES = {
    "math": [{"display": "block"}],
    "mo": [{}, {"lspace": "0", "rspace": "0"}, {"rspace": "0.1667em"}],
    "mspace": [{"width": "0.25em"}],
    "menclose": [{"notation": "updiagonalstrike"}],
    "mover": [{}, {"accent": "true"}],
    "munder": [{}, {"accentunder": "true"}],
}
LEAVES = ("mi", "mn", "mo", "mtext")
COUNTS = {"mfrac": 2, "mroot": 2, "msub": 2, "msup": 2, "mover": 2, "munder": 2, "msubsup": 3, "mspace": 0}
ROWS = ("math", "mrow", "msqrt", "menclose", "mtd")
INSIDE = {"mtr": "mtable", "mtd": "mtr"}
SHOWN = 5


class Broken(Exception):
    pass


def expect(holds, what):
    if not holds:
        raise Broken(what)


def check_lines(table):
    """The rows of a table are equally long, and columnlines has an entry between each two columns."""
    columns = {len(row) for row in table}
    expect(len(columns) == 1 and columns != {0}, "rows of different lengths")
    lines = table.get("columnlines")
    if columns == {1}:
        expect(not table.attrib, "columnlines with one column")
        return
    expect(set(table.attrib) == {"columnlines"}, "no columnlines")
    entries = lines.split(" ")
    expect(len(entries) == min(columns) - 1, f"{len(entries)} entries of columnlines")
    expect(set(entries) <= {"solid", "none"}, f"columnlines {lines}")


def check_element(element, name, parent):
    children = [local(child) for child in element]
    characters = (element.text or "") + "".join(child.tail or "" for child in element)
    if name in LEAVES:
        expect(not children, f"an element in {name}")
    else:
        expect(not characters, f"characters in {name}")
    if name in COUNTS:
        expect(len(children) == COUNTS[name], f"{len(children)} children of {name}")
    elif name not in LEAVES and name not in ROWS:
        expect(name in ("mtable", "mtr"), f"an element {name}")
    expect((name == "math") == (parent is None), "math inside, or another root")
    expect(INSIDE.get(name, parent) == parent, f"{name} in {parent}")
    expect(parent not in INSIDE.values() or INSIDE.get(name) == parent, f"{name} in {parent}")
    expect(" " not in characters, f"a blank in {name}")
    if name == "mtable":
        check_lines(element)
    else:
        expect(element.attrib in ATTRIBUTES.get(name, [{}]), f"attributes of {name}")


def local(element):
    namespace, _, name = element.tag.removeprefix("{").partition("}")
    expect(namespace == NAMESPACE, f"another namespace: {element.tag}")
    return name


def check(text, answer):
    """Raises Broken where the answer for a text is not as promised."""
    expect(min(answer, default=0) >= 32, "a byte below 32")
    expect(len(answer) <= 72 + 48 * len(text), f"{len(answer)} bytes for {len(text)}")
    references = re.findall(rb"&[^;]*;?", answer)
    expect(set(references) <= {b"&lt;", b"&gt;", b"&amp;"}, "another reference")
    expect(not re.search(rb"/>|<[?!]|> | <", answer), "a short tag, a declaration or a blank between tags")
    try:
        root = ElementTree.fromstring(answer)
    except ElementTree.ParseError as error:
        raise Broken(f"not well-formed: {error}") from error
    waiting = [(root, None)]
    while waiting:
        element, parent = waiting.pop()
        name = local(element)
        check_element(element, name, parent)
        waiting += [(child, name) for child in element]


def check_file(path):
    answers = refused = broken = 0
    with open(path, "rb") as file:
        for line in file:
            digits, _, answer = line.rstrip(b"\n").partition(b"\t")
            if re.fullmatch(rb"refused=\d+", answer):
                refused += 1
                continue
            answers += 1
            text = digits
            try:
                expect(re.fullmatch(rb"([0-9a-f]{2})*", digits), "no text in hex")
                text = bytes.fromhex(digits.decode())
                check(text, answer)
            except Broken as why:
                broken += 1
                if broken <= SHOWN:
                    print(f"{text!r}: {why}\n  {answer.decode(errors='replace')[:300]}")
    print(f"{path}: {answers} answers, {broken} of them broken, {refused} refusals")
    return broken == 0 and answers > 0


# for each a text, what is broken in its answer and by what
TABLE = '<mrow><mo>[</mo><mtable columnlines="none"><mtr><mtd><mn>1</mn></mtd><mtd><mn>2</mn></mtd></mtr></mtable><mo>]</mo></mrow>'
RIGHT = [("x^2", "<msup><mi>x</mi><mn>2</mn></msup>"), ("[[1,2]]", TABLE), ('"a b"&?', "<mtext>a\u00a0b</mtext><mo>&amp;</mo><mo>?</mo>")]
WRONG = [
    ("x^2", "</msup>", "</msub>", "not well-formed"),
    ("x^2", "</math>", "", "not well-formed"),
    ("x^2", "<mn>2</mn>", "", "1 children of msup"),
    ("x^2", "<mn>2</mn>", "<mn>2</mn><mn></mn>", "3 children of msup"),
    ("x^2", "<mn>2</mn>", "2", "characters in msup"),
    ("x^2", "<mi>x</mi>", "<mi><mn>x</mn></mi>", "an element in mi"),
    ("x^2", "msup>", "mpower>", "an element mpower"),
    ("x^2", "1998/Math/MathML", "1998/Math", "another namespace"),
    ("x^2", "<mi>x</mi>", '<mspace width="0.25em">x</mspace>', "characters in mspace"),
    ("x^2", "<mi>x</mi>", "<mtd></mtd>", "mtd in msup"),
    ("x^2", "<mi>x</mi>", "<mi></mi>" * 30, "bytes for 3"),
    ("x^2", "<mi>x</mi>", "<mi>x</mi> ", "a blank between tags"),
    ("x^2", "<mi>x</mi>", "<mi/>", "a short tag"),
    ("x^2", "<mi>x</mi>", '<mi lspace="0">x</mi>', "attributes of mi"),
    ("[[1,2]]", ' columnlines="none"', "", "no columnlines"),
    ("[[1,2]]", '"none"', '"none none"', "2 entries"),
    ("[[1,2]]", '"none"', '"dashed"', "columnlines dashed"),
    ("[[1,2]]", "<mtd><mn>2</mn></mtd>", "", "columnlines with one column"),
    ("[[1,2]]", "</mtr></mtable>", "</mtr><mtr></mtr></mtable>", "rows of different lengths"),
    ("[[1,2]]", "<mtd><mn>2</mn></mtd>", "<mn>2</mn>", "mn in mtr"),
    ("[[1,2]]", "mtr>", "mrow>", "mrow in mtable"),
    ('"a b"&?', "\u00a0", " ", "a blank in mtext"),
    ('"a b"&?', "\u00a0", "\n", "a byte below 32"),
    ('"a b"&?', "\u00a0", "&nbsp;", "another reference"),
    ('"a b"&?', "&amp;", "&#38;", "another reference"),
    ('"a b"&?', "&amp;", "&", "another reference"),
    ('"a b"&?', "?", "\udc80", "not well-formed"),
]


def selftest():
    whole = {text: f'<math xmlns="{NAMESPACE}" display="block">{inside}</math>' for text, inside in RIGHT}
    for text, answer in whole.items():
        check(text.encode(), answer.encode())
    for text, old, new, why in WRONG:
        answer = whole[text].replace(old, new)
        expect(answer != whole[text], f"nothing is broken by {old!r}")
        try:
            check(text.encode(), answer.encode(errors="surrogateescape"))
        except Broken as said:
            expect(why in str(said), f"{answer}: {said}, not {why}")
        else:
            raise Broken(f"not found: {answer}")
    print(f"{len(whole)} right answers pass, {len(WRONG)} broken ones are found")


def main():
    if sys.argv[1:] == ["--selftest"]:
        selftest()
    elif len(sys.argv) > 1 and not sys.argv[1].startswith("-"):
        sys.exit(not all([check_file(path) for path in sys.argv[1:]]))
    else:
        sys.exit("usage: check_xml.py FILE.. | --selftest")


main()
