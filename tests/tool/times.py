"""Pages of 64 cells and 512 links, of books that are made in many ways: that they are made, and how long they take. A time is said, and is no verdict."""
import resource
from pathlib import Path

import books
from books import Book, seeded
from calls import call
from tally import Tally

CELLS, LINKS = 64, 512


def by_chance(name, labels, sounds):
    """Links by chance, and a copy with one thing changed."""
    rnd = seeded("times", name)
    links = set()
    while len(links) < LINKS:
        links.add((rnd.randrange(CELLS), rnd.randrange(labels), rnd.randrange(CELLS)))
    old = Book([rnd.randint(1, sounds) for _ in range(CELLS)], links)
    new = books.renumbered(rnd, old)[0]
    return old, Book(new.recordings, sorted(new.links)[1:], 1)


def to_the_next(recordings):
    """A ring in which one label leads from each cell to the eight that follow."""
    return Book(recordings, {(x, 1, (x + step) % CELLS) for x in range(CELLS) for step in range(1, 9)})


def down(cells):
    """One label leads from each cell to the eight before it."""
    return Book([1] * CELLS, {(x, 1, y) for x in range(cells) for y in range(max(0, x - 8), x)})


def pairs():
    """Name, old and new book."""
    for labels, sounds in (1, 3), (3, 1), (8, 8), (66, 4):
        name = f"by chance, {labels} labels, {sounds} recordings"
        yield name, *by_chance(name, labels, sounds)
    yield "a ring, one recording lost", to_the_next(range(1, 65)), to_the_next([1, *range(1, 64)])
    yield "a ring, one recording moved", to_the_next([1] * 63 + [2]), to_the_next([1] * 62 + [2, 2])
    yield "down", down(64), down(63)
    ring = {(x, label, (x + 1) % CELLS) for x in range(CELLS) for label in range(8)}
    yield "a ring of eight labels", Book([1] * 64, ring), Book([1] * 63 + [2], ring)


class Times:
    def __init__(self, folder):
        self.tally, self.folder = Tally("times"), Path(folder)

    def everything(self):
        taken = {}
        for name, old, new in pairs():
            taken[name] = self.seconds(old, new)
            taken[f"{name}, one-way"] = self.seconds(old, new, "--one-way")
        slowest = max(taken, key=taken.get)
        return self.tally.end(f"{len(taken)} pages of {CELLS} cells and about {LINKS} links were made, in at most {taken[slowest]:.1f} s of the processor "
                              f"({slowest})")

    def seconds(self, old, new, *options):
        """What a page takes, of all processes that make it."""
        paths = [self.folder / "old.book", self.folder / "new.book"]
        for path, book in zip(paths, (old, new)):
            path.write_bytes(book.data())
        before = used()
        got = call("page", *paths, "-o", self.folder / "page.html", *options)
        self.tally.check(got.status in (0, 1) and got.err == "", "a large page", got)
        return used() - before


def used():
    spent = resource.getrusage(resource.RUSAGE_CHILDREN)
    return spent.ru_utime + spent.ru_stime
