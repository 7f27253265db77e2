"""Which cells are matched or, one-way, covered, by the definition of the papers alone: clause by clause, for small books."""
from itertools import product


def paths(book, start, bound):
    """The ways of cells from the start of at most so many links, as (labels, cells)."""
    out, last = [((), ())], [((), (), start)]
    for _ in range(bound):
        last = [(labels + (label,), cells + (y,), y) for labels, cells, x in last for label in book.labels() for y in book.goes(x, label)]
        out += [(labels, cells) for labels, cells, _ in last]
    return out


def partners(old, new, bound, one_way=False):
    """The pairs of the greatest relation that has its clauses, for cells that are not hidden."""
    ways = [{x: paths(book, x, bound) for x in book.cells} for book in (old, new)]
    related = set(product(old.cells, new.cells))
    while True:
        turned = {(y, x) for x, y in related}
        kept = {(x, y) for x, y in related if keeps(old, new, ways, x, y, related)
                and (one_way or keeps(new, old, ways[::-1], y, x, turned))}
        if kept == related:
            return related
        related = kept


def keeps(left, right, ways, a, b, related):
    """The clauses for this pair, from left to right."""
    for label in left.labels():
        for x in left.goes(a, label):
            if not any((x, y) in related for y in right.goes(b, label)):
                return False
    alike = lambda p: [q for q in ways[1][b] if q[0] == p[0] and all(pair in related for pair in zip(p[1], q[1]))]
    like = {p: alike(p) for p in ways[0][a]}
    end = lambda path, start: path[1][-1] if path[1] else start
    for p, q in product(ways[0][a], repeat=2):
        sound = left.sound(end(p, a), end(q, a))
        if sound is not None and not any(right.sound(end(r, b), end(s, b)) is sound for r in like[p] for s in like[q]):
            return False
    return True
