"""Two books compared: what the library says of every pair, and what helps to read it.

The library's: which pairs are matched (one-way: covered), each parted pair's question, that a shorter question is true at the old cell and false at
the new one, and the answers that are shown. Help: the closest cell, the places, the ways to practise.
"""
import library
from books import NEW, OLD, bits
from practice import Practice
from questions import DEPTH, Sheet, has_not, read_sheet, sheets_of
from refusals import Trouble
from shorter import Shortener
from words import Speaker, asked

STRICTEST = 4
ROUNDS = 10  # of agreement
ONLY_NEW = 0.25  # what a label that only the new cell has counts against it one-way


class Comparison:
    """The comparison of two books for a bound, in either form. Cells are counted as in Book; old cells first.

    at[i][j]        0 if the pair is matched (covered), else the number of its question in `questions`, the sheet's entries
    short[i, j]     the question that is shown for a parted pair
    partners[i]     the new cells that old cell i is matched with (covered by); back[j]: the old cells of new cell j
    alone           the old cells without one, and the new cells without one
    closest[i]      for an old cell without partner: the new cells that come closest
    missing[c]      how many old cells have no partner at bound c
    places          where to look first: `cells` (old ones that a place accounts for), `pair`, `story`
    """

    def __init__(self, old, new, bound, one_way=False):
        self.books, self.bound, self.one_way = (old, new), bound, one_way
        self.hidden = (old.hidden, new.hidden)
        self.version = max(old.version, new.version)
        self.n, self.m = old.n, new.n
        self.compare()
        self.speaker = Speaker(self.books)
        self.shorten()
        self.agreement = agreement(self.books, ONLY_NEW if one_way else 1)
        self.practice = Practice(self.books, self.agreement)
        self.closest = {i: self.closest_to(i) for i in self.alone[OLD]}
        self.find_places()

    # The library's answers

    def compare(self):
        """Compare at every bound; and once more at bound 0 with one recording for all cells, which is what links alone tell."""
        self.depths, self.missing = [], []
        for bound in range(STRICTEST + 1):
            done = self.asked_library(bound, [book.data for book in self.books])
            questions = read_sheet(done.sheet)
            at = self.seen_map(done.map)
            self.depths.append([[DEPTH[questions[k]] if k else 0 for k in row] for row in at])
            self.missing.append(sum(all(row) for row in at))
            if bound == self.bound:
                self.at, self.map, self.sheet, self.matched, self.questions = at, done.map, done.sheet, done.matched, questions
        links = self.asked_library(0, [one_recording(book.data) for book in self.books])
        self.links_agree = [[k == 0 for k in row] for row in self.seen_map(links.map)]
        width = self.books[NEW].size
        self.partners = [list(bits(self.books[NEW].seen(library.row(self.map, width, i)[1]))) for i in self.books[OLD].number]
        self.back = [[i for i in range(self.n) if not self.at[i][j]] for j in range(self.m)]
        self.alone = ([i for i in range(self.n) if not self.partners[i]], [j for j in range(self.m) if not self.back[j]])

    def asked_library(self, bound, data):
        return library.compare(*data, bound, self.hidden, self.one_way)

    def seen_map(self, places):
        """The places of a map that have no hidden cell, by rows."""
        old, new = self.books
        return [[places[i * new.size + j] for j in new.number] for i in old.number]

    def shorten(self):
        """A shorter question for each parted pair that the library confirms; else the library's own."""
        self.take_truth()
        shortener = Shortener(self.books)
        own = {(i, j): self.questions[k] for i, row in enumerate(self.at) for j, k in enumerate(row) if k}
        self.short = {(i, j): shortener.separate(p, OLD, 1 << i, 1 << j) for (i, j), p in own.items()}
        self.words = self.truth_of([*self.short.values(), *own.values()])
        self.unconfirmed = [pair for pair, p in self.short.items() if not self.confirmed(p, *pair)]
        for pair in self.unconfirmed:
            self.short[pair] = own[pair]
            if not self.confirmed(own[pair], *pair):
                raise Trouble("the library does not confirm its own question; this is a fault of the program")

    def take_truth(self):
        """The library's truth of the sheet's questions is what the shortening starts from."""
        for book in self.books:
            for p, word in zip(self.questions, library.truth(book.data, book.hidden, self.sheet)):
                book.truth[p] = book.seen(word)

    def truth_of(self, questions):
        """Where these questions, and all that they are made of, are true in both books, as the library says."""
        words = {}
        for sheet in sheets_of(sorted(set(questions)), self.bound, self.version):
            data = sheet.bytes()
            old, new = ([book.seen(word) for word in library.truth(book.data, book.hidden, data)] for book in self.books)
            words.update((p, (old[k], new[k])) for p, k in sheet.entry.items())
        return words

    def confirmed(self, p, i, j):
        """Does the library say that p is true at old cell i and false at new cell j? One-way it has no "not", either."""
        return p in self.words and self.answers(p, i, j) == (True, False) and not (self.one_way and has_not(p))

    def answers(self, p, i, j):
        """The library's answers to a question at an old and a new cell."""
        old, new = self.words[p]
        return bool(old >> i & 1), bool(new >> j & 1)

    def shown_answers(self, i, j):
        """The answers to the question of a parted pair as it is put in words, at the old and at the new cell: yes or no."""
        return tuple("yes" if yes else "no" for yes in self.answers(asked(self.short[i, j]), i, j))

    def claimed(self, i, j):
        """Does the library's Claim say yes to the question of a pair?"""
        p, sheet = self.short[i, j], Sheet(self.bound, self.version)
        cells = (book.number[k] for book, k in zip(self.books, (i, j)))
        return sheet.add(p) and library.claim(*(book.data for book in self.books), self.hidden, sheet.bytes(), sheet.entry[p], *cells)

    # Help

    def groups(self):
        """Old cells with the same partners together: lists of old and of new cells; one-way the likest new cell comes first."""
        found = {}
        for i, row in enumerate(self.partners):
            if row:
                found.setdefault(tuple(row), []).append(i)
        like = lambda i, j: -round(self.agreement[i][j], 6) if self.one_way else 0
        return [(cells, sorted(row, key=lambda j: (like(cells[0], j), j))) for row, cells in found.items()]

    def names_differ(self, old, new):
        """Have these cells, a group, names that differ? One-way: is none of the new cells called as an old one is? Unnamed cells do not differ."""
        names = [{book.names.get(i) for i in cells} for book, cells in zip(self.books, (old, new))]
        if None in names[0] | names[1]:
            return False
        return not names[0] <= names[1] if self.one_way else names[0] != names[1]

    def depth(self, i, j):
        return self.depths[self.bound][i][j]

    def only_sounds(self, i, j):
        """Is the pair parted, but not by links alone?"""
        return bool(self.at[i][j]) and self.links_agree[i][j]

    def closest_to(self, i):
        """The new cells whose links, out of the cell and into it, agree most with those of old cell i; of these, those that are told apart at
        the largest depth, here and at the bounds below. (Depth alone misleads just where the mistake is: there a cell and its faulty copy are
        told apart at depth 1, and from a stranger perhaps at 2.)"""
        def far(j):
            depths = [self.depths[bound][i][j] for bound in range(self.bound, -1, -1)]
            return (-round(self.agreement[i][j], 6), *(-(depth or 10 ** 6) for depth in depths))
        best = min(far(j) for j in range(self.m))
        return [j for j in range(self.m) if far(j) == best]

    def story(self, i, j):
        """The number of the ways to practise of a parted pair."""
        return self.practice.tell(self.short[i, j], OLD, i, j)

    def find_places(self):
        """The fewest places of the new book in which the ways of all old cells without partner, with the closest new cell, end."""
        marks, ending = {}, {}
        for i in self.alone[OLD]:
            j = self.closest[i][0]
            number = self.story(i, j)
            story, way, levels = self.practice.last(number)
            ending[i] = (levels, len(story["w"]) + len(story.get("v", [])), i, j, number)
            for mark in marks_of(story, way):
                marks.setdefault(mark, set()).add(i)
        self.places, left = [], set(self.alone[OLD])
        while left:
            most = max(len(cells & left) for cells in marks.values())
            best = min(mark for mark, cells in marks.items() if len(cells & left) == most)
            cells = sorted(marks[best] & left)
            left.difference_update(cells)
            _, _, i, j, number = min(ending[i] for i in cells)
            if not self.claimed(i, j):
                raise Trouble("the library does not confirm a question; this is a fault of the program")
            self.places.append({"mark": best, "cells": cells, "pair": (i, j), "story": number})
        self.place_of = {i: k for k, place in enumerate(self.places) for i in place["cells"]}


def one_recording(data):
    """A book's bytes with one recording for all cells."""
    end = 8 + 4 * data[5]
    return data[:8] + b"\0\0\0\1" * data[5] + data[end:]


def marks_of(story, way):
    """The places of the new book at which a story ends: a link that is missing (too many), or cells whose sound is another."""
    lead = story["lead"]
    new_start = story["y"] if lead == OLD else story["x"]
    if story["kind"] == "heard":
        return [("sound", new_start, 0, 0)]
    if way is None:
        k, which = len(story["stuck"]), story.get("which", 0)
        leader = (story["wp"], story.get("vp"))[which]
        has = leader[k - 1] if k else story["x"]
        lacks = story["stuck"][-1] if k else story["y"]
        return [("link", lacks if lead == OLD else has, (story["w"], story.get("v"))[which][k], lead)]
    new = way if lead == OLD else story
    return sorted({("sound", cells[-1] if cells else new_start, 0, 0) for cells in (new["wp"], new["vp"])})


def agreement(books, only_new):
    """How far the links of two cells agree, 0 to 1, for every pair: a label that both have counts as much as the cells agree to which (from
    which) it leads, a label that one has counts nothing. only_new: how far a label that only the new cell has counts against it."""
    old, new = books
    ends = [[links_by_label(book, 0, 2), links_by_label(book, 2, 0)] for book in books]
    weights = [[[weight(ends[OLD][way][i], ends[NEW][way][j], only_new) for way in (0, 1)] for j in range(new.n)] for i in range(old.n)]
    score = [[1.0] * new.n for _ in range(old.n)]
    for _ in range(ROUNDS):
        turned = list(zip(*score))
        best = [[likest(cells, score) for cells in ends[NEW]], [likest(cells, turned) for cells in ends[OLD]]]
        score = [[agreed(weights[i][j], i, j, ends, best) for j in range(new.n)] for i in range(old.n)]
    return score


def links_by_label(book, start, end):
    """For every cell: its links out (in) as label -> cells."""
    out = [{} for _ in range(book.n)]
    for link in book.links:
        out[link[start]].setdefault(link[1], []).append(link[end])
    return out


def weight(a, b, only_new):
    """What two cells' links in one direction weigh together, and the labels of both."""
    common = sorted(a.keys() & b.keys())
    return len(a) + only_new * (len(b) - len(common)), common


def likest(ends, score):
    """For each cell's label: how far each cell of the other book agrees with the likest of the cells that the label leads to."""
    return [{label: [max([row[y] for y in cells]) for row in score] for label, cells in links.items()} for links in ends]


def agreed(two, i, j, ends, best):
    """How far old cell i and new cell j agree, from how far their neighbours do."""
    total, got = 1.0, 1.0
    for way, (weight, common) in enumerate(two):
        total += weight
        for label in common:
            p, q = ends[OLD][way][i][label], ends[NEW][way][j][label]
            to_new, to_old = best[0][way][j][label], best[1][way][i][label]
            got += (sum(to_new[x] for x in p) + sum(to_old[y] for y in q)) / (len(p) + len(q))
    return got / total
