"""Names of cells and labels, from X.names beside X.book. The comparison never sees them.

A line is `cell NUMBER NAME` or `label NUMBER NAME`; one that begins with # is for people. The name of a hidden cell is not even decoded.
"""
import os
import re
import unicodedata

from files import read_file, shown
from refusals import Trouble

LARGEST_FILE = 1 << 20
LONGEST_NAME = 60
LARGEST_LABEL = 65535
WITHOUT = "(--no-names leaves names out)"
LINE = re.compile(rb"(cell|label)[ \t]+([0-9]{1,9})[ \t]+(\S.*)")
TURNING = set("\u200e\u200f\u061c\u202a\u202b\u202c\u202d\u202e\u2066\u2067\u2068\u2069")


class Names:
    """The names in a file: `cells` and `labels` are names by number, `file` is the file's name, or None if it gave none."""

    def __init__(self, path=None, size=0, hidden=0):
        """Reads the names of a book of `size` cells from the file, if there is one; `hidden` is the word of its hidden cells."""
        self.file, self.cells, self.labels = None, {}, {}
        if path is None or not os.path.lexists(path):
            return
        self.path, self.size, self.hidden = path, size, hidden
        for number, line in enumerate(lines_of(path), 1):
            self.read(line.strip(), number)
        if self.cells or self.labels:
            self.file = os.path.basename(path)

    def read(self, line, number):
        if not line or line.startswith(b"#"):
            return
        found = LINE.fullmatch(line)
        if not found:
            self.fail(number, "is not `cell NUMBER NAME` or `label NUMBER NAME`")
        what, k = found[1].decode(), int(found[2])
        if what == "cell" and k < 64 and self.hidden >> k & 1:
            return
        if what == "cell" and k >= self.size or k > LARGEST_LABEL:
            self.fail(number, f"names {what} {k}, which the book {'does not' if what == 'cell' else 'cannot'} have")
        names = self.cells if what == "cell" else self.labels
        if k in names:
            self.fail(number, f"names {what} {k} a second time")
        names[k] = self.name(found[3], number)

    def name(self, data, number):
        """The name, in one line and no longer than is shown."""
        try:
            text = " ".join(data.decode("utf-8").split())
        except UnicodeDecodeError:
            self.fail(number, "has damaged bytes: it is not text in UTF-8")
        if any(unicodedata.category(c) == "Cc" or c in TURNING for c in text):
            self.fail(number, "has characters that cannot be shown")
        return text if len(text) <= LONGEST_NAME else text[:LONGEST_NAME - 1] + "…"

    def fail(self, number, what):
        """Where cells are hidden, the line's number would tell how many lines there are of them."""
        where = "a line" if self.hidden else f"line {number}"
        raise Trouble(f"{shown(self.path)}: {where} {what} {WITHOUT}")


def names_beside(book):
    """Where the names of a book are, if it has some."""
    return os.path.splitext(book)[0] + ".names"


def lines_of(path):
    """The file's lines, as bytes."""
    try:
        data = read_file(path, LARGEST_FILE)
    except Trouble as fault:
        raise Trouble(f"{fault} {WITHOUT}")
    if len(data) > LARGEST_FILE:
        raise Trouble(f"{shown(path)} is too large for a file of names {WITHOUT}")
    return data.removeprefix(b"\xef\xbb\xbf").splitlines()
