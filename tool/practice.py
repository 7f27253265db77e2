"""Ways to practise: why a pair is parted, as walks in both books, side by side.

Of a question that is true at cell x in one book, which leads, and false at cell y in the other, which follows: the leader goes a way, and every
way of the follower with the same labels fails, at its end or at a cell that a test tells apart; then the next story tells of these two
cells. A "not" lets the other book lead; of an "and" a part is told that is false at y, of an "or" one that is true at x.

A story is a dictionary:
    kind      "way", "same", "differ", or "heard" (a sound is heard at x, and y is silent)
    lead      the book that leads, OLD or NEW; x, y: the leader's and the follower's cell
    w, wp     the labels of the way, and the cells that the leader reaches by them; v, vp: those of the second way of a same or differ
    stuck     if the follower cannot go the labels: the cells that it reaches; which: 0 for w, 1 for v
    ways      else the follower's ways, at most SHOWN, the likest first: each with wp (and vp) and either sub, the number of the story of the
              two cells at place `at` (way, step), or, in a same or differ, end: "same", "different" or "silent"
    more      how many further ways (pairs of ways, in a same or differ) there are, none of which does
"""
from itertools import product
from operator import itemgetter

from questions import ALWAYS, AND, DEPTH, HEARD, LENGTH, NODES, NOT, OR, SAME, WAY, flat, holds, path_through, two_paths

MOST_WAYS, MOST_TWO_WAYS = 100, 16  # that are looked at, the likest ones
FINE = 10 ** 6


class Practice:
    SHOWN = 4

    def __init__(self, books, agreement):
        """agreement[i][j]: how far old cell i and new cell j agree; the likest way is told first. likeness[lead] has it by the leader's cell and
        the follower's, in whole numbers, so that sums are exact."""
        self.books, self.known, self.stories = books, {}, []
        rows = [[round(FINE * x) for x in row] for row in agreement]
        self.likeness = (rows, [list(column) for column in zip(*rows)])

    def tell(self, p, side, x, y):
        """The number of the story of p, true at x in book `side` and false at y in the other."""
        p, side, x, y = self.plain(p, side, x, y)
        key = (p, side, x, y)
        if key not in self.known:
            self.known[key] = len(self.stories)
            self.stories.append(None)
            self.stories[self.known[key]] = self.story(p, side, x, y)
        return self.known[key]

    def plain(self, p, side, x, y):
        """The part of p to tell of, which is a way, a same or a differ."""
        while NODES[p][0] in (NOT, AND, OR):
            key, kind = NODES[p], NODES[p][0]
            if kind == NOT:
                p, side, x, y = key[1], 1 - side, y, x
                continue
            leader, follower = self.books[side], self.books[1 - side]
            good = [c for c in flat(p, kind) if (not holds(follower, c) >> y & 1 if kind == AND else holds(leader, c) >> x & 1)]
            p = min(good, key=lambda c: (DEPTH[c], LENGTH[c], c))
        return p, side, x, y

    def story(self, p, side, x, y):
        begun = {"kind": "way", "lead": side, "x": x, "y": y, "w": [], "wp": []}
        if p == HEARD:
            return {**begun, "kind": "heard"}
        return (self.way if NODES[p][0] == WAY else self.comparison)(p, begun)

    def way(self, p, story):
        leader, follower = self.two(story)
        steps = NODES[p][1]
        story.update(w=[label for label, _ in steps], wp=path_through(leader, story["x"], steps))
        cells = stuck(follower, story["y"], steps)
        if cells is not None:
            return {**story, "stuck": cells}
        told = ({"wp": cells, "at": [0, k], "sub": (steps[k][1], story["lead"], story["wp"][k], cells[k])}
                for _, cells, k in self.walks(story, steps, story["wp"], MOST_WAYS))
        return self.finish(story, told, how_many(follower, story["y"], steps))

    def comparison(self, p, story):
        leader, follower = self.two(story)
        kind, first, second = NODES[p]
        wp, vp = two_paths(leader, story["x"], kind, first, second)
        labels = [[label for label, _ in steps] for steps in (first, second)]
        story.update(kind="same" if kind == SAME else "differ", w=labels[0], v=labels[1], wp=wp, vp=vp)
        for which, steps in enumerate((first, second)):
            cells = stuck(follower, story["y"], steps)
            if cells is not None:
                return {**story, "stuck": cells, "which": which}
        ways = how_many(follower, story["y"], first) * how_many(follower, story["y"], second)
        return self.finish(story, self.two_ways(story, follower, first, second), ways)

    def two_ways(self, story, follower, first, second):
        """The follower's pairs of ways, the likest first, each with why it fails."""
        ways = [self.walks(story, steps, path, MOST_TWO_WAYS) for steps, path in ((first, story["wp"]), (second, story["vp"]))]
        for (_, a, failing_a), (_, b, failing_b) in sorted(product(*ways), key=lambda two: two[0][0] + two[1][0], reverse=True):
            at = [0, failing_a] if failing_a is not None else [1, failing_b] if failing_b is not None else None
            if at:
                w, k = at
                cells = (story["wp"], story["vp"])[w][k], (a, b)[w][k]
                yield {"wp": a, "vp": b, "at": at, "sub": ((first, second)[w][k][1], story["lead"], *cells)}
            else:
                yield {"wp": a, "vp": b, "end": sounds(follower, *(cells[-1] if cells else story["y"] for cells in (a, b)))}

    def walks(self, story, steps, path, most):
        """The follower's ways along the labels, the likest to the leader's path first, up to a number: how far each agrees, its cells, and the
        first step whose test is false there (None if there is none)."""
        book, alike, out = self.books[1 - story["lead"]], self.likeness[story["lead"]], [(0, (), story["y"])]
        for (label, _), cell in zip(steps, path):
            likest, leads = alike[cell], book.leads(label)
            out = [(likeness + likest[t], (walk, t), t) for likeness, walk, here in out for t in leads[here]]
            out.sort(key=itemgetter(0), reverse=True)
            del out[most:]
        for likeness, walk, _ in out:
            cells = unrolled(walk)
            yield likeness, cells, failing(book, steps, cells)

    def two(self, story):
        return self.books[story["lead"]], self.books[1 - story["lead"]]

    def finish(self, story, told, ways):
        """The story with the follower's first ways; of those that fail for one reason the first. The others are counted: there are `ways`."""
        kept = {}
        for way in told:
            mark = ("sub", *way["sub"][1:]) if "sub" in way else ("end", *way["wp"][-1:], *way["vp"][-1:])
            kept.setdefault(mark, way)
            if len(kept) == self.SHOWN:
                break
        for way in kept.values():
            if "sub" in way:
                way["sub"] = self.tell(*way["sub"])
        return {**story, "ways": list(kept.values()), "more": ways - len(kept)}

    def last(self, number):
        """Where the story ends along the first way at each level: the story, its way (None if there is none), and how many levels."""
        levels = 1
        while True:
            story = self.stories[number]
            way = story["ways"][0] if "ways" in story else None
            if way is None or "sub" not in way:
                return story, way, levels
            number, levels = way["sub"], levels + 1


def stuck(book, i, steps):
    """None if the labels can be gone from cell i, else the cells of a longest way along them."""
    cells, sets = 1 << i, []
    for label, _ in steps:
        sets.append(cells)
        cells = book.image(cells, label)
        if not cells:
            gone = [(label, ALWAYS) for label, _ in steps[:len(sets) - 1]]
            return path_through(book, i, gone, sets[-1] & -sets[-1])
    return None


def how_many(book, i, steps):
    """How many ways there are along the labels from cell i."""
    count = {i: 1}
    for label, _ in steps:
        leads, after = book.leads(label), {}
        for cell, ways in count.items():
            for t in leads[cell]:
                after[t] = after.get(t, 0) + ways
        count = after
    return sum(count.values())


def unrolled(walk):
    """The cells of a way that is given as (the way before, the last cell)."""
    cells = []
    while walk:
        walk, last = walk
        cells.append(last)
    return cells[::-1]


def failing(book, steps, cells):
    """The first step whose test is false at its cell."""
    return next((k for k, ((_, test), cell) in enumerate(zip(steps, cells)) if not holds(book, test) >> cell & 1), None)


def sounds(book, a, b):
    """How two cells of a book sound."""
    if book.silent(a) or book.silent(b):
        return "silent"
    return "same" if book.recordings[a] == book.recordings[b] else "different"
