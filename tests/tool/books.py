"""Books as the papers fix them, read and written here apart from the tool, and random ones."""
import random


class Book:
    """Cells with recordings, and links as (from cell, label, to cell). A hidden cell and all links at it count as absent."""

    def __init__(self, recordings, links, version=1, hidden=()):
        self.recordings, self.links, self.version, self.hidden = list(recordings), sorted(set(links)), version, frozenset(hidden)
        self.cells = [cell for cell in range(len(self.recordings)) if cell not in self.hidden]
        self.targets = {}
        for x, label, y in self.links:
            if x not in self.hidden and y not in self.hidden:
                self.targets.setdefault((x, label), []).append(y)

    def data(self):
        """The bytes of the book, hidden cells and all."""
        links = b"".join(bytes([x]) + label.to_bytes(self.version, "big") + bytes([y]) for x, label, y in self.links)
        rest = bytes([self.version, len(self.recordings)]) + len(self.links).to_bytes(2, "big")
        rest += b"".join(r.to_bytes(4, "big") for r in self.recordings) + links
        return (4 + len(rest)).to_bytes(4, "big") + rest

    def seen_without(self, hidden):
        return Book(self.recordings, self.links, self.version, hidden)

    def goes(self, x, label):
        return self.targets.get((x, label), [])

    def sound(self, x, y):
        """Whether the two cells sound the same (True) or different (False); None where one is silent."""
        a, b = self.recordings[x], self.recordings[y]
        return None if a == 0 or b == 0 else a == b

    def labels(self):
        return sorted({label for _, label, _ in self.links})


def read(data, hidden=()):
    """The book of these bytes, or the number of the first refusal that applies."""
    if len(data) < 8:
        return 1
    field = lambda at, size: int.from_bytes(data[at:at + size], "big")
    if field(0, 4) != len(data):
        return 2
    version, n, e = data[4], data[5], field(6, 2)
    if version not in (1, 2):
        return 3
    if not 1 <= n <= 64 or e > 512:
        return 4
    size = 2 + version
    if len(data) != 8 + 4 * n + size * e:
        return 5
    links = []
    for at in range(8 + 4 * n, len(data), size):
        x, label, y = data[at], field(at + 1, version), data[at + 1 + version]
        if x >= n or y >= n:
            return 6
        if links and (x, label, y) <= links[-1]:
            return 7
        links.append((x, label, y))
    return Book([field(8 + 4 * i, 4) for i in range(n)], links, version, hidden)


def random_book(rnd, n, degree=2.0, labels=3, sounds=None, silent=0.0, version=1, wide=False):
    """n cells, about degree links a cell. Wide labels need two bytes."""
    sounds = sounds or max(1, n // 3)
    known = rnd.sample(range(256, 65536), labels) if wide else rnd.sample(range(0, 256), labels) if rnd.random() < 0.3 else range(labels)
    recordings = [0 if rnd.random() < silent else rnd.randint(1, sounds) for _ in range(n)]
    links = {(rnd.randrange(n), rnd.choice(list(known)), rnd.randrange(n)) for _ in range(min(512, round(degree * n)))}
    return Book(recordings, links, 2 if wide else version)


def any_book(rnd, largest=8):
    """A random book of either version, with or without silent cells and wide labels."""
    wide = rnd.random() < 0.25
    return random_book(rnd, rnd.randint(1, largest), rnd.choice([0.5, 1.0, 1.5, 2.5]), rnd.randint(1, 3), rnd.randint(1, 4),
                       rnd.choice([0, 0, 0.2, 0.6]), rnd.choice([1, 2]), wide)


def relabelled(book, labels):
    """The book with labels exchanged for others, one for one: for pairs of books that share labels."""
    version = book.version if max(labels.values()) < 256 else 2
    return Book(book.recordings, {(x, labels[label], y) for x, label, y in book.links}, version, book.hidden)


def any_pair(rnd, largest=8):
    """Two random books with the same labels; often the second is like the first but for a little."""
    old = any_book(rnd, largest)
    kind = rnd.random()
    if kind < 0.6:
        return old, changed(rnd, renumbered(rnd, old)[0])
    new = any_book(rnd, largest)
    old_labels, new_labels = old.labels(), new.labels()
    both = dict(zip(new_labels, old_labels + [x for x in new_labels if x not in old_labels]))
    return old, relabelled(new, both) if both else new


def renumbered(rnd, book):
    """The book with its cells in another order and other recording numbers, and the new number of each cell."""
    order = list(range(len(book.recordings)))
    rnd.shuffle(order)
    fresh = dict(zip(sorted(set(book.recordings) - {0}), rnd.sample(range(1, 4000), len(set(book.recordings)))))
    recordings = [0] * len(order)
    for x, y in enumerate(order):
        recordings[y] = fresh.get(book.recordings[x], 0)
    return Book(recordings, {(order[x], label, order[y]) for x, label, y in book.links}, book.version), order


def changed(rnd, book):
    """The book with one thing changed: a recording, a link lost, a link added."""
    recordings, links = list(book.recordings), set(book.links)
    kind = rnd.randrange(3)
    if kind == 0 or not links:
        recordings[rnd.randrange(len(recordings))] = rnd.choice(recordings + [0, 5000])
    elif kind == 1:
        links.discard(rnd.choice(sorted(links)))
    else:
        links.add((rnd.randrange(len(recordings)), rnd.choice(sorted(links))[1], rnd.randrange(len(recordings))))
    return Book(recordings, links, book.version)


def seeded(*key):
    return random.Random("/".join(map(str, key)))
