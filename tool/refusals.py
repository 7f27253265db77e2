"""What can go wrong, in words: the library's refusals by number, and where and why a file is no book."""

REFUSALS = {
    1: "it has fewer than 8 bytes, too few for the beginning of a book or a sheet",
    2: "it is not as long as its first four bytes say",
    3: "it is of a version that is not read here (only 1 and 2 are)",
    4: "it says that it has no cells, more than 64 cells, or more than 512 links",
    5: "its length does not fit its number of cells and links",
    6: "a link starts at or leads to a cell that the book does not have",
    7: "its links are not in rising order, or one is there twice",
    8: "it says a bound above 4, or no entries, or more than 16,385 entries",
    9: "an entry of the sheet is cut short, or bytes are left over after the last",
    10: "an entry of the sheet is of a kind that there is not (kinds are 0 to 6)",
    11: "a way in the sheet has too many steps (60 at most; in a same or differ, as many as the bound)",
    12: "an entry of the sheet speaks of one that does not come before it",
    13: "the first entry of the sheet is not \"always true\"",
    14: "an entry of the sheet is not of the size that its kind asks for",
    20: "the bound is above 4",
    21: "the map lent does not have a place for each pair of cells",
    22: "the room lent for the sheet is too small",
    23: "the scratch memory lent is too small",
    24: "fewer words are lent than the sheet has entries",
    25: "there is no such question in the sheet",
    26: "there is no such cell in the book, or no such place in the map",
    27: "a map's rows have 1 to 64 places",
    28: "the question refers to others in a chain of more than 1,024",
    29: "the question's text would have more than 4,294,967,295 characters",
    30: "the room lent for the text is too small",
    31: "a cell to hide is not in the book",
}

PARTS = ("the call", "the old book", "the new book", "the sheet")


class Trouble(Exception):
    """What is said on standard error when there is no answer; the status is 2."""


class Refused(Trouble):
    """A refusal of the library: its number, the part that it speaks of (PARTS), and the answer's two values."""

    def __init__(self, number, part=0, first=0, second=0, words=None):
        where = PARTS[part] if part < len(PARTS) else f"part {part}"
        why = REFUSALS.get(number, "for a reason that is not known here")
        super().__init__(words or f"{where} was refused: {why} (refusal {number})")
        self.number, self.part, self.first, self.second = number, part, first, second


def detail(data, number, limit):
    """Where and why bytes are no book, in a sentence; the number is the library's refusal. Of a file at most `limit` bytes were read."""
    has = f"more than {limit:,}" if len(data) > limit else f"{len(data):,}"
    if number == 1:
        return "It is empty." if not data else f"It has {len(data)} byte{'s' * (len(data) != 1)}."
    if number == 2:
        if all(32 <= b < 127 for b in data[:4]):
            return f"It begins with the characters {data[:4].decode('ascii')!r} and seems to be a file of another kind."
        return f"It says {int.from_bytes(data[:4], 'big'):,} bytes and has {has}: it was cut, or is another file."
    if number == 3:
        return f"It says version {data[4]}."
    cells, links = data[5], int.from_bytes(data[6:8], "big")
    if number == 4:
        return f"It says {cells} cells and {links} links."
    if number == 5:
        return f"{cells} cells and {links} links take {8 + 4 * cells + (2 + data[4]) * links:,} bytes; it has {has}."
    return wrong_link(data, number, cells, links)


def wrong_link(data, number, cells, links):
    """The first link that is refused with 6 or 7, in a sentence."""
    width, before = 2 + data[4], None
    for k in range(links):
        at = 8 + 4 * cells + width * k
        f, label, t = data[at], int.from_bytes(data[at + 1:at + width - 1], "big"), data[at + width - 1]
        what = f"Link {k} (from cell {f} by label {label} to cell {t}, byte {at})"
        if number == 6 and max(f, t) >= cells:
            return f"{what} names cell {f if f >= cells else t}; the book has cells 0 to {cells - 1}."
        if number == 7 and before is not None and (f, label, t) <= before:
            equal = ", its equal." if (f, label, t) == before else "."
            return f"{what} comes after the link from cell {before[0]} by label {before[1]} to cell {before[2]}{equal}"
        before = (f, label, t)
    return ""
