"""A book as it is seen: read, checked by the library, and without the cells that are hidden."""
import os

import library
from files import read_file, shown
from names import Names, names_beside
from refusals import REFUSALS, Refused, Trouble, detail

OLD, NEW = 0, 1
SIDE = ("old", "new")
SAME, DIFFER = 5, 6  # the two comparisons, by their kinds in a sheet
MOST_READ = 1 << 16
MOST_KEPT = 1 << 18


def bits(word):
    """The members of a set of cells, rising."""
    while word:
        low = word & -word
        yield low.bit_length() - 1
        word ^= low


class Book:
    """A checked book less its hidden cells.

    Cells are counted here without the hidden ones, from 0; `number` has their numbers in the file. Nothing but `data`, `hidden` and `size`
    depends on hidden cells; these three are for the library alone. `recordings` and `names` go by cell, `links` are (cell, label, cell).
    `all` and what `to`, `image` and `preimage` give are sets of cells as words; `compared[SAME][i]` are the cells that sound the same as cell i,
    `compared[DIFFER][i]` those that sound different: none where cell i is silent.
    """

    def __init__(self, data, hidden=0, names=None, file=""):
        self.data, self.hidden, self.size, self.file = data, hidden, data[5], file
        self.version = data[4]
        self.number = [i for i in range(self.size) if not hidden >> i & 1]
        self.n = len(self.number)
        self.recordings = [int.from_bytes(data[8 + 4 * i:12 + 4 * i], "big") for i in self.number]
        index = {x: i for i, x in enumerate(self.number)}
        self.links = [(index[f], label, index[t]) for f, label, t in links_of(data) if f in index and t in index]
        names = names or Names()
        self.names_file, self.label_names = names.file, names.labels
        self.names = {index[x]: name for x, name in names.cells.items() if x in index}
        self.prepare()

    def prepare(self):
        """Sets of cells for each label and recording, and room for the truth of questions."""
        self.all = (1 << self.n) - 1
        self.forth, self.back = {}, {}
        for f, label, t in self.links:
            self.forth.setdefault(label, [0] * self.n)[f] |= 1 << t
            self.back.setdefault(label, [0] * self.n)[t] |= 1 << f
        like = {}
        for i, recording in enumerate(self.recordings):
            like[recording] = like.get(recording, 0) | 1 << i
        heard = self.all & ~like.get(0, 0)
        self.compared = {
            SAME: [like[r] if r else 0 for r in self.recordings],
            DIFFER: [heard & ~like[r] if r else 0 for r in self.recordings],
        }
        self.truth, self.carried, self.lists = {}, ({}, {}), {}

    def silent(self, i):
        return self.recordings[i] == 0

    def to(self, i, label):
        """The cells that the label leads to from cell i."""
        return self.forth[label][i] if label in self.forth else 0

    def leads(self, label):
        """For every cell: the cells that the label leads to, as a list."""
        if label not in self.lists:
            self.lists[label] = [list(bits(self.to(i, label))) for i in range(self.n)]
        return self.lists[label]

    def image(self, cells, label):
        """The cells that the label leads to from some of these."""
        return self.carry(0, self.forth, cells, label)

    def preimage(self, cells, label):
        """The cells from which the label leads to some of these."""
        return self.carry(1, self.back, cells, label)

    def carry(self, way, links, cells, label):
        """The union of what the links give for these cells; kept, since the same is asked again and again."""
        known = self.carried[way]
        out = known.get((label, cells))
        if out is None:
            if len(known) > MOST_KEPT:
                known.clear()
            out = known[label, cells] = united(links.get(label), cells)
        return out

    def seen(self, word):
        """A word of the library, over the file's numbers, as a set of cells."""
        if not self.hidden:
            return word
        return sum(1 << i for i, x in enumerate(self.number) if word >> x & 1)


def united(row, cells):
    out = 0
    if row:
        while cells:
            low = cells & -cells
            out |= row[low.bit_length() - 1]
            cells ^= low
    return out


def links_of(data):
    """The links of a book's bytes."""
    width, start = 2 + data[4], 8 + 4 * data[5]
    for at in range(start, start + width * int.from_bytes(data[6:8], "big"), width):
        yield data[at], int.from_bytes(data[at + 1:at + width - 1], "big"), data[at + width - 1]


def read_book(path, side=None, hidden=(), named=True):
    """The book in a file, without the hidden cells (numbers in the file), with its names. Raises Refused where the library refuses it."""
    data = read_file(path, MOST_READ)
    called = f"the {SIDE[side]} book, {shown(path)}," if side is not None else shown(path)
    try:
        size, _ = library.check_book(data)
    except Refused as fault:
        more = "." if hidden else f". {detail(data, fault.number, MOST_READ)}"  # where cells are to be hidden, nothing of the file is told
        raise Refused(fault.number, fault.part, words=f"{called} is not a book: {REFUSALS[fault.number]}{more} (refusal {fault.number})")
    word = hidden_word(hidden, size, called)
    names = Names(names_beside(path), size, word) if named else None
    return Book(data, word, names, shown(os.path.basename(path)))


def hidden_word(hidden, size, called):
    """The word that hides these cells; refusal 31 where one is not in the book. At least one cell has to be left."""
    word = 0
    for cell in hidden:
        if cell >= size:
            raise Refused(31, words=f"cell {cell} cannot be hidden: {called} does not have it (refusal 31)")
        word |= 1 << cell
    if word == (1 << size) - 1:
        raise Trouble(f"every cell of {called} is hidden: nothing is left to compare")
    return word
