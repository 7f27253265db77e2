"""The proved library's functions behind types. Bytes are lent, answers come back as values, and a refusal is the exception Refused.

Cells are numbered as in the file, and places of a map go by all cells of both books, hidden or not. A hidden word has bit i where cell i is
hidden: what is answered then does not depend on such cells, which is the library's theorem.
"""
import ctypes
from functools import lru_cache
from typing import NamedTuple

from linking import shared_object
from refusals import Refused, Trouble

HIDDEN = 65535
MOST_ENTRIES = 16385
LONGEST_TEXT = (1 << 32) - 1

BYTES, PLACES, WORDS = (ctypes.POINTER(t) for t in (ctypes.c_uint8, ctypes.c_uint16, ctypes.c_uint64))
SIZE, WORD = ctypes.c_size_t, ctypes.c_uint64
LENT = [BYTES, SIZE]
COMPARE = [*LENT, *LENT, SIZE, WORD, WORD, PLACES, SIZE, *LENT, *LENT]
FUNCTIONS = {
    "check_book": LENT,
    "check_sheet": LENT,
    "compare": COMPARE,
    "compare_one_way": COMPARE,
    "truth": [*LENT, WORD, *LENT, WORDS, SIZE],
    "claim": [*LENT, *LENT, WORD, WORD, *LENT, SIZE, SIZE, SIZE, WORDS, SIZE],
    "row": [PLACES, SIZE, SIZE, SIZE],
    "row_word": [PLACES, SIZE, SIZE, SIZE],
    "pair": [PLACES, SIZE, SIZE, *LENT],
    "question_length": [*LENT, SIZE],
    "question_text": [*LENT, SIZE, *LENT],
}


class Compared(NamedTuple):
    """What Compare leaves: the map, the sheet's bytes, and how many pairs are matched or, one-way, covered."""
    map: list
    sheet: bytes
    matched: int


@lru_cache(None)
def functions():
    """The library's functions by name."""
    path = shared_object()
    try:
        shared = ctypes.CDLL(path)
        found = {name: getattr(shared, f"cuhnavel_{name}") for name in FUNCTIONS}
    except (OSError, AttributeError) as fault:
        raise Trouble(f"the library {path} cannot be loaded: {fault}")
    for name, arguments in FUNCTIONS.items():
        found[name].restype, found[name].argtypes = ctypes.c_uint64, arguments
    return found


def lent(data):
    """Bytes as they are lent: a pointer that is not null, and their number."""
    return (ctypes.c_uint8 * max(1, len(data))).from_buffer_copy(bytes(data) or b"\0"), len(data)


def room(kind, count):
    return (kind * max(1, count))(), count


def ask(name, *arguments):
    """The two values of an answer; raises Refused."""
    answer = functions()[name](*arguments)
    refusal, part, first, second = answer & 255, answer >> 8 & 255, answer >> 16 & 0xFFFFFF, answer >> 40
    if refusal:
        raise Refused(refusal, part, first, second)
    return first, second


def check_book(book):
    """How many cells and links a book has."""
    return ask("check_book", *lent(book))


def check_sheet(sheet):
    """How many entries a sheet has, and its bound."""
    return ask("check_sheet", *lent(sheet))


def compare(old, new, bound, hidden=(0, 0), one_way=False):
    """Which cells are matched (one-way: covered), and what parts the others: Compared."""
    pairs = (old[5] if len(old) > 5 else 0) * (new[5] if len(new) > 5 else 0)
    places, sheet, scratch = room(ctypes.c_uint16, pairs), room(ctypes.c_uint8, 10 + 52 * pairs), room(ctypes.c_uint8, 16 * pairs)
    name = "compare_one_way" if one_way else "compare"
    length, matched = ask(name, *lent(old), *lent(new), bound, *hidden, *places, *sheet, *scratch)
    return Compared(places[0][:pairs], bytes(sheet[0][:length]), matched)


def truth(book, hidden, sheet):
    """A word for each entry of the sheet, with bit i where it is true at cell i."""
    count, _ = check_sheet(sheet)
    words = room(ctypes.c_uint64, count)
    ask("truth", *lent(book), hidden, *lent(sheet), *words)
    return words[0][:count]


def claim(old, new, hidden, sheet, entry, old_cell, new_cell):
    """Is the entry true at the old cell and false at the new one?"""
    count, _ = check_sheet(sheet)
    yes, _ = ask("claim", *lent(old), *lent(new), *hidden, *lent(sheet), entry, old_cell, new_cell, *room(ctypes.c_uint64, count))
    return yes == 1


def places_of(map):
    return (ctypes.c_uint16 * max(1, len(map)))(*map), len(map)


def row(map, width, cell):
    """How many new cells old cell `cell` is matched with (covered by), and which, as a word."""
    places = places_of(map)
    count, _ = ask("row", *places, width, cell)
    return count, functions()["row_word"](*places, width, cell)


def pair(map, place, sheet):
    """The number of the question that parts the pair at this place (0: none does; HIDDEN), and the byte of the sheet where it starts."""
    return ask("pair", *places_of(map), place, *lent(sheet))


def question_length(sheet, entry):
    """How many characters the text of an entry's question has."""
    first, second = ask("question_length", *lent(sheet), entry)
    return first + (second << 24)


def question_text(sheet, entry):
    """The text of an entry's question, in full."""
    length = question_length(sheet, entry)
    text = room(ctypes.c_uint8, length)
    ask("question_text", *lent(sheet), entry, *text)
    return bytes(text[0][:length]).decode("ascii")
