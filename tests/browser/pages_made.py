"""The pages that are tried, made by the command from the examples and from books that are large, deep, hidden in part, silent, or named oddly."""
import sys
import time
from pathlib import Path

sys.path.insert(0, str(Path(__file__).resolve().parents[1] / "tool"))
import books
from books import Book, seeded
from calls import ROOT, call

EXAMPLES = ROOT / "examples"
ODD_NAMES = "cell 0 <b>tea</b> & \"milk\" 'x' </script><script>throw 1</script>\ncell 1 <!-- \\u003c {{DATA}} ${n} `\nlabel 1 <i>look</i> up\n"
NARROW = "cell 0 " + "w" * 59 + "\nlabel 1 " + "m" * 59 + "\n"


def large(rnd):
    """64 cells and 512 links, and the same with cells numbered anew and a few things changed."""
    links = set()
    while len(links) < 512:
        links.add((rnd.randrange(64), rnd.randrange(12), rnd.randrange(64)))
    old = Book([rnd.randint(1, 30) for _ in range(64)], links)
    new, _ = books.renumbered(rnd, old)
    for _ in range(3):
        new = books.changed(rnd, new)
    while len(new.links) > 512:
        new = Book(new.recordings, new.links[1:], new.version)
    return old, new


def chain(length, goes_on):
    """A chain, and at its end perhaps one link more: the library's questions for two such chains have texts of more than 10^80 characters."""
    links = {(x, 1, x + 1) for x in range(length - 1)}
    return Book([1] * length, links | ({(length - 1, 2, length - 1)} if goes_on else set()))


def written(folder, name, book, names=None):
    (folder / f"{name}.book").write_bytes(book.data())
    if names is not None:
        (folder / f"{name}.names").write_text(names, encoding="utf-8")
    return folder / f"{name}.book"


def pages_of(folder):
    """Of each page: the two books, and the options."""
    rnd = seeded("browser")
    put = lambda name, book, names=None: written(folder, name, book, names)
    old, new = EXAMPLES / "voice-old.book", EXAMPLES / "voice-new.book"
    big_old, big_new = large(rnd)
    silent = Book([0, 5, 5, 0], [(0, 1, 1), (0, 1, 2), (1, 2, 3), (2, 2, 0)])
    wide = Book([5, 5, 6, 0], [(0, 1, 1), (0, 65535, 2), (2, 256, 3)], 2)
    return {
        "example": (old, new),
        "good": (old, EXAMPLES / "voice-mended.book"),
        "plain": (old, new, "--no-names", "--no-graphviz"),
        "loose": (old, new, "--bound", "1"),
        "grown": (old, EXAMPLES / "voice-grown.book", "--one-way"),
        "renamed": (old, EXAMPLES / "voice-grown.book"),
        "ungrown": (EXAMPLES / "voice-grown.book", old, "--one-way"),
        "hidden": (old, new, "--hide-old", "6,23-25", "--hide-new", "16,19,32,33"),
        "a": (EXAMPLES / "a-left.book", EXAMPLES / "a-right.book"),
        "alike": (EXAMPLES / "loop-5.book", EXAMPLES / "pair-55.book"),
        "one": (EXAMPLES / "loop-5.book", EXAMPLES / "pair-56.book"),
        "silent": (put("silent-old", silent), put("silent-new", books.changed(rnd, silent))),
        "heard": (put("heard-old", Book([0], [])), put("heard-new", Book([7], [])), "--one-way"),
        "wide": (put("wide-old", wide), put("wide-new", Book([5, 5, 6, 7], wide.links, 2))),
        "odd": (put("odd-old", Book([5, 5, 6], [(0, 1, 1), (0, 1, 2)]), ODD_NAMES), put("odd-new", Book([5, 5], [(0, 1, 1)]), ODD_NAMES)),
        "long names": (put("long-old", Book([5, 5, 6], [(0, 1, 1), (0, 1, 2)]), NARROW), put("long-new", Book([5, 5], [(0, 1, 1)]), NARROW)),
        "deep": (put("deep-old", chain(60, True)), put("deep-new", chain(60, False)), "--bound", "0"),
        "big": (put("big-old", big_old), put("big-new", big_new)),
    }


class Made:
    """A page with the books that it is of."""

    def __init__(self, folder, name, old, new, *options):
        self.name, self.options = name, options
        self.path = folder / f"{name}.html"
        start = time.monotonic()
        self.result = call("page", old, new, "-o", self.path, *options)
        self.seconds = time.monotonic() - start
        hidden = [cells(options, side) for side in ("--hide-old", "--hide-new")]
        self.books = [books.read(path.read_bytes(), cells) for path, cells in zip((old, new), hidden)]
        self.address = self.path.as_uri()
        self.text = self.path.read_text(encoding="utf-8")


def cells(options, name):
    """The cells of an option such as 3,5-7"""
    if name not in options:
        return ()
    ranges = [part.split("-") for part in options[options.index(name) + 1].split(",")]
    return [x for part in ranges for x in range(int(part[0]), int(part[-1]) + 1)]
