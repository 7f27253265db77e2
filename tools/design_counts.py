#!/usr/bin/env python3
"""Counts the places of docs/DESIGN-PASS.md in the code below crates/*/src: `tools/design_counts.py [ROOT]` prints a line a kind of place, with -v also each place."""
import re
import sys
from pathlib import Path

FUNCTION = re.compile(r'^( *)(?:#\[[^\n]*\]\n *)?(?:pub )?(?:extern "C" )?fn (\w+)(.*?)\n\1\}$', re.M | re.S)
LOOP = re.compile(r"^( *)(?:'\w+: )?(while [^\n]*|loop) \{\n(.*?)\n\1\}$", re.M | re.S)


def code(path):
    """The text of a file with its comments blanked."""
    return re.sub(r"//[^\n]*", "", path.read_text())


def line(text, at):
    return text.count("\n", 0, at) + 1


def matches(pattern, flags=re.M):
    def of(text):
        return [(line(text, m.start()), m.group(0).strip().split("\n")[0]) for m in re.finditer(pattern, text, flags)]

    return of


def loops(counted):
    """Loops by hand: those that count an index up or down by steps in their body, or the others."""

    def of(text):
        found, start = [], 0
        while m := LOOP.search(text, start):
            start = m.start(2)
            steps = re.findall(r"\b(\w+) (?:\+|-)= ", m.group(3))
            tested = re.findall(r"\b[a-z]\w*\b", m.group(2))
            if any(name in tested for name in steps) == counted:
                found.append((line(text, m.start(2)), m.group(2)))
        return found

    return of


def signatures(test):
    def of(text):
        found = []
        for m in FUNCTION.finditer(text):
            head = re.split(r"\n *(?:requires|ensures)\b|\n? *\{\n", m.group(3), maxsplit=1)[0]
            if test(m.group(2), head):
                found.append((line(text, m.start(2)), m.group(2)))
        return found

    return of


def clauses(pattern):
    return matches(rf"^ +(?:requires|ensures)\b[^\n]*?(?:{pattern})")


def together(*names):
    """Functions that take all of these parameters."""
    return signatures(lambda _, head: all(re.search(rf"\b{name}: ", head) for name in names))


KINDS = {
    "1 own enums like Option or Result": matches(r"^(?:pub )?enum \w*(?:Answer|Place)\b"),
    "1 a refusal answered as a number": signatures(lambda name, head: "refusal" in name and head.endswith("-> u8")),
    "1 constants that number kinds, parts or comparisons": matches(r"^(?:pub )?const (?:KIND_\w+|OF_\w+|SAME|DIFFER|MOST_KIND): u8"),
    "1 parameters and fields that are such a number": matches(r"\b(?:kind|t|part|refusal): u8"),
    "1 a flag or a number for none beside a value": matches(r"^ +(?:pub )?(?:full|none): bool"),
    "2 one function a width or a side": matches(r"fn (?:get[1-4]|put[1-4]|has_left|has_right)\b"),
    "3 loops that count an index": loops(True),
    "3 other loops by hand": loops(False),
    "4 order, least, sums and conversions by hand": matches(r"fn (?:precedes|smaller|capped|sum|wide|question_of|cell_of)\b"),
    "4 printing by hand": matches(r"fn (?:digits|put_number|put_two_digits|put_labelled|put_ending)\b"),
    "5 clauses: a book or a sheet is accepted": clauses(r"(?:book|sheet)_refusal [\w.]+ ≡ 0"),
    "5 clauses: the links of a side are in order": clauses(r"Ordered \(view"),
    "5 clauses: links are held and grouped": clauses(r"Held |Grouped "),
    "5 clauses: one list is as long as another": clauses(r"length chains\.now ≤ length lengths\.now|length \w+\.old ≡ \d"),
    "5 functions that take the lists of a side apart": together("sa|starts", "la|labels", "ta|to"),
    "6 functions that take two parallel arrays": signatures(lambda _, head: bool(re.search(r"\b(?:lefts|pl|l|ends): &(?:mut )?\[u64; 64\],\s*(?:rights|pr|r|sets): &(?:mut )?\[u64; 64\]", head)) or bool(re.search(r"chains: &(?:mut )?\[u16\], lengths", head))),
    "6 functions that take arrays of links apart": signatures(lambda _, head: bool(re.search(r"from: &(?:mut )?\[u8; 512\]", head) and re.search(r"labels: &", head))),
    "7 a switch on the step to run, a table of functions": matches(r"&dyn |: fn\(|\[fn\("),
}


def main():
    shown = "-v" in sys.argv[1:]
    roots = [argument for argument in sys.argv[1:] if argument != "-v"]
    root = Path(roots[0]) if roots else Path(__file__).resolve().parents[1]
    files = sorted(root.glob("crates/*/src/*.rt"))
    for kind, of in KINDS.items():
        places = [(path, *place) for path in files for place in of(code(path))]
        print(f"{len(places):4}  {kind}")
        if shown:
            for path, number, text in places:
                print(f"        {path.relative_to(root)}:{number}: {text[:110]}")


main()
