"""A vocabulary, the studio's copy of it (cells split, joined, renumbered), and mistakes made in the copy. Which cell of the copy is meant for which
of the vocabulary is known, and where each mistake was made."""
from books import Book

BACK = 9


def vocabulary(rnd, pages):
    """Pages that open pages and have words; from a word a link leads back to its page. Some pages are there twice."""
    recordings, links, words = [], set(), iter(range(1, 1000))
    opened = [0]
    recordings.append(next(words))
    for _ in range(pages - 1):
        page = len(recordings)
        recordings.append(next(words))
        parent = rnd.choice(opened)
        links.add((parent, free_label(rnd, links, parent), page))
        if rnd.random() < 0.5:
            links.add((page, BACK, parent))
        opened.append(page)
    for page in opened:
        for _ in range(rnd.randint(0, 3)):
            word = len(recordings)
            recordings.append(rnd.choice(recordings) if rnd.random() < 0.15 else next(words))
            links |= {(page, free_label(rnd, links, page), word), (word, BACK, page)}
    for _ in range(rnd.randint(0, 2)):
        page = rnd.choice(opened)
        links.add((page, free_label(rnd, links, page), rnd.choice(opened)))
    return Book(recordings, links)


def free_label(rnd, links, cell):
    used = {label for x, label, _ in links if x == cell}
    return rnd.choice([label for label in range(1, 9) if label not in used] or [1])


class Copy:
    """A copy in the making. says: what each cell says, as the old book's recording; meant: the old cells that each cell stands for."""

    def __init__(self, book):
        self.says = dict(enumerate(book.recordings))
        self.links = set(book.links)
        self.meant = {x: {x} for x in self.says}

    def split(self, rnd):
        """A cell becomes two that do the same; the links to it are shared out."""
        cell, twin = rnd.choice(sorted(self.says)), max(self.says) + 1
        self.says[twin], self.meant[twin] = self.says[cell], set(self.meant[cell])
        self.links |= {(twin, label, y) for x, label, y in self.links if x == cell}
        for x, label, y in sorted(self.links):
            if y == cell and rnd.random() < 0.5:
                self.links.remove((x, label, y))
                self.links.add((x, label, twin))

    def join(self, cell, twin):
        """Two cells that do the same become one."""
        into = lambda x: cell if x == twin else x
        self.links = {(into(x), label, into(y)) for x, label, y in self.links}
        self.meant[cell] |= self.meant.pop(twin)
        del self.says[twin]

    def book(self, rnd):
        """The copy as a book, numbered anew, and the number of each cell."""
        cells = sorted(self.says)
        rnd.shuffle(cells)
        number = {x: i for i, x in enumerate(cells)}
        spoken = sorted(set(self.says.values()) - {0})
        fresh = dict(zip(spoken, rnd.sample(range(3001, 5001), len(spoken))))
        return Book([fresh.get(self.says[x], 0) for x in cells], {(number[x], label, number[y]) for x, label, y in self.links}), number


def doubled(rnd, book):
    """The book with a cell split, and the two cells that came of it."""
    copy = Copy(book)
    copy.split(rnd)
    twin = max(copy.says)
    cell = min(copy.meant[twin])
    return Book([copy.says[x] for x in sorted(copy.says)], copy.links), (cell, twin)


def near_copy(rnd, pages):
    """An old book and a copy that is right."""
    old, twins = doubled(rnd, vocabulary(rnd, pages))
    copy = Copy(old)
    copy.join(*twins)
    for _ in range(rnd.randint(1, 2)):
        copy.split(rnd)
    return old, copy


def mistake(rnd, copy):
    """Where a mistake may be made in the copy, as (kind, cell, ..): another recording, a link lost, a link that leads elsewhere."""
    cells, links = sorted(copy.says), sorted(copy.links)
    kind = rnd.choice(["sound", "lost", "astray"])
    if kind == "sound":
        cell = rnd.choice(cells)
        return kind, cell, copy.says[rnd.choice([x for x in cells if copy.says[x] != copy.says[cell]])]
    x, label, y = rnd.choice(links)
    if kind == "lost":
        return kind, x, label, y
    return kind, x, label, y, rnd.choice([z for z in cells if z != y])


def make(copy, fault):
    """The copy with this mistake."""
    made = Copy(Book([], []))
    made.says, made.links, made.meant = dict(copy.says), set(copy.links), copy.meant
    kind, cell, *rest = fault
    if kind == "sound":
        made.says[cell] = rest[0]
    else:
        made.links.discard((cell, rest[0], rest[1]))
        if kind == "astray":
            made.links.add((cell, rest[0], rest[2]))
    return made
