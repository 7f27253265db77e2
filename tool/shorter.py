"""Shorter questions. The library's question for a pair is true at the old cell and false at the new one, and of least depth, but may say
much that this pair does not need: a test in it describes a cell against all others.

separate(p, side, X, Y) leaves that out: p is true at every cell of X in one book and false at every cell of Y in the other, and so is what it
gives. It is made of parts of p, keeps to the bound, and has a "not" only where p has one. Where the other book cannot go a way at all it
asks just that, which is easier than to compare sounds, though it may be deeper. The library is asked about each before it is shown.
"""
from books import bits
from questions import (ALWAYS, AND, DEPTH, LENGTH, LONGEST_WAY, NODES, NOT, OR, SAME, WAY,
                       both, compares, ends, flat, holds, node, path_through, two_paths)


class Shortener:
    """Shortens questions between two books. Sets of cells are words; `side` is the book of X, where the question is true."""

    def __init__(self, books):
        self.books, self.known = books, {}

    def separate(self, p, side, X, Y):
        if not Y:
            return ALWAYS
        key = (p, side, X, Y)
        if key not in self.known:
            self.known[key] = self.work(p, side, X, Y)
        return self.known[key]

    def work(self, p, side, X, Y):
        key, kind = NODES[p], NODES[p][0]
        if kind == NOT:
            q = self.separate(key[1], 1 - side, Y, X)
            return NODES[q][1] if NODES[q][0] == NOT else node(NOT, q)
        if kind in (AND, OR):
            return self.fewest(kind, flat(p, kind), side, X, Y)
        if kind == WAY:
            return self.way(list(key[1]), side, X, Y)
        return self.comparison(kind, list(key[1]), list(key[2]), side, X, Y)

    def fewest(self, kind, parts, side, X, Y):
        """The fewest parts of an and that are false at all of Y, or of an or that are true at all of X; shallow and short ones first."""
        book = self.books[1 - side if kind == AND else side]
        does = (lambda c: ~holds(book, c)) if kind == AND else (lambda c: holds(book, c))
        out, left = None, Y if kind == AND else X
        while left:
            best = min(parts, key=lambda c: (-bin(does(c) & left).count("1"), DEPTH[c], LENGTH[c], c))
            got = does(best) & left
            left &= ~got
            q = self.separate(best, side, X, got) if kind == AND else self.separate(best, side, got, Y)
            out = q if out is None or out == q else node(kind, out, q)
        return out

    def way(self, steps, side, X, Y):
        """The way up to where Y cannot go on, with tests that do no more than that."""
        T, F = self.books[side], self.books[1 - side]
        cells = Y
        for k, (label, test) in enumerate(steps):
            cells = F.image(cells, label) & holds(F, test)
            if not cells:
                steps = steps[:k + 1]
                break
        paths = [path_through(T, x, steps) for x in bits(X)]
        for _, k in by_depth((steps,)):
            label, test = steps[k]
            witnesses = union(path[k] for path in paths)
            steps[k] = (label, self.separate(test, side, witnesses, self.arriving(F, Y, steps, k)))
        return node(WAY, tuple(going_on(steps)))

    @staticmethod
    def arriving(F, Y, steps, k):
        """Where Y can come to by step k, on ways that pass every other test."""
        before, after = Y, F.all
        for label, test in steps[:k]:
            before = F.image(before, label) & holds(F, test)
        for label, test in reversed(steps[k + 1:]):
            after = F.preimage(after & holds(F, test), label)
        return F.image(before, steps[k][0]) & after

    def comparison(self, kind, first, second, side, X, Y):
        """The two ways with tests that do no more than is needed; then asked more easily, if that can be."""
        T, F = self.books[side], self.books[1 - side]
        pairs = [two_paths(T, x, kind, first, second) for x in bits(X)]
        ways = (first, second)
        for which, k in by_depth(ways):
            against = self.comparable(F, kind, Y, ways[which], ways[1 - which], k)
            witnesses = union(pair[which][k] for pair in pairs)
            label, test = ways[which][k]
            ways[which][k] = (label, self.separate(test, side, witnesses, against))
        for way in ways:
            if way and not any(ends(F, y, way) for y in bits(Y)):
                return self.way(list(way), side, X, Y)
        return self.factored(kind, first, second, T, F, X, Y)

    @staticmethod
    def comparable(F, kind, Y, way, other, k):
        """Where Y can come to by step k of a way, on two ways that pass every other test and compare as asked."""
        found = 0
        for y in bits(Y):
            partner = ends(F, y, other)
            for d in bits(F.image(ends(F, y, way[:k]), way[k][0]) & ~found):
                last = 1 << d
                for label, test in way[k + 1:]:
                    last = F.image(last, label) & holds(F, test)
                if compares(F, kind, last, partner):
                    found |= 1 << d
        return found

    @staticmethod
    def factored(kind, first, second, T, F, X, Y):
        """If both ways begin alike, the comparison from where they part, where that tells X from Y too."""
        common = 0
        while common < min(len(first), len(second)) and first[common][0] == second[common][0]:
            common += 1
        if common == len(first) == len(second) and not (kind == SAME and first == second):
            common -= 1
        for c in range(common, 0, -1):
            steps = [(label, both(t, u)) for (label, t), (_, u) in zip(first[:c], second[:c])]
            inner = node(kind, tuple(first[c:]), tuple(second[c:]))
            steps[-1] = (steps[-1][0], both(steps[-1][1], inner))
            p = node(WAY, tuple(steps))
            if not X & ~holds(T, p) and not Y & holds(F, p):
                return p
        return node(kind, tuple(first), tuple(second))


def by_depth(ways):
    """The steps that have a test, as (way, step), the deepest and longest tests first."""
    tests = {(which, k): test for which, way in enumerate(ways) for k, (_, test) in enumerate(way) if test != ALWAYS}
    return sorted(tests, key=lambda place: (-DEPTH[tests[place]], -LENGTH[tests[place]]))


def going_on(steps):
    """A last test that is itself a way is the way's going on."""
    key = NODES[steps[-1][1]]
    if key[0] == WAY and len(steps) + len(key[1]) <= LONGEST_WAY:
        return [*steps[:-1], (steps[-1][0], ALWAYS), *key[1]]
    return steps


def union(cells):
    out = 0
    for c in cells:
        out |= 1 << c
    return out
