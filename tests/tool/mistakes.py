"""Mistakes made in a copy are found: each is on a way to practise of a place that the page names, and the cell that was meant comes closest."""
import re
from collections import Counter

import copies
import pages
from books import seeded
from tally import Tally

# At least so many of the mistakes of copies with one, two and three, and of the closest cells, in percent.
LEAST = {1: 100, 2: 80, 3: 74}
LEAST_CLOSEST = 90


class Mistakes:
    def __init__(self, worker, folder, cases):
        """cases: how many copies with one, two and three mistakes."""
        self.tally, self.worker, self.folder, self.cases = Tally("mistakes"), worker, folder, cases
        self.found, self.made, self.places, self.copies, self.closest = Counter(), Counter(), Counter(), Counter(), Counter()

    def everything(self):
        for count, cases in self.cases.items():
            for case in range(cases):
                self.case(count, seeded("mistakes", count, case))
        said = []
        for count in self.cases:
            share = 100 * self.found[count] / max(1, self.made[count])
            self.tally.check(share >= LEAST[count], f"of {count} a copy: {self.found[count]} of {self.made[count]} mistakes are on a named way")
            said.append(f"{self.found[count]} of {self.made[count]} mistakes, {count} a copy, are on a named way "
                        f"({self.places[count] / max(1, self.copies[count]):.1f} places a page)")
        share = 100 * self.closest["meant"] / max(1, self.closest["all"])
        self.tally.check(share >= LEAST_CLOSEST, f"{self.closest['meant']} of {self.closest['all']} closest cells are those that were meant")
        return self.tally.end(f"{'; '.join(said)}; of {self.closest['all']} closest cells {share:.1f} % are those that were meant")

    def case(self, count, rnd):
        old, copy = copies.near_copy(rnd, rnd.randint(3, 5))
        while True:
            faults = [copies.mistake(rnd, copy) for _ in range(count)]
            if len({fault[1:3] for fault in faults}) == count and all(self.matters(rnd, old, copy, fault) for fault in faults):
                break
        faulty = copy
        for fault in faults:
            faulty = copies.make(faulty, fault)
        new, number = faulty.book(rnd)
        page = self.page(old, new)
        data = pages.data_of(page)
        stories = [int(k) for k in re.findall(r"data-story=(\d+)", page)]
        named = [named_ways(data, story) for story in stories]
        self.copies[count] += 1
        self.places[count] += len(stories)
        self.made[count] += count
        self.found[count] += sum(any(is_on(fault, number, way) for way in named) for fault in faults)
        meant = {number[x]: old_cells for x, old_cells in faulty.meant.items()}
        for i, j in data["closest"]:
            self.closest["all"] += 1
            self.closest["meant"] += i in meant[j]

    def matters(self, rnd, old, copy, fault):
        """Whether the mistake, made alone, leaves an old cell without partner."""
        new, _ = copies.make(copy, fault).book(rnd)
        return self.call("compare", old, new, "--brief").status == 1

    def page(self, old, new):
        page = self.folder / "mistakes.html"
        got = self.call("page", old, new, "-o", page, "--no-graphviz")
        self.tally.check(got.status in (0, 1), "a page of a copy with mistakes", got)
        return page.read_text()

    def call(self, command, old, new, *more):
        paths = [self.folder / "mistakes-old.book", self.folder / "mistakes-new.book"]
        for path, book in zip(paths, (old, new)):
            path.write_bytes(book.data())
        return self.worker.call(command, *paths, "--no-names", *more)


def named_ways(data, story):
    """What is gone and compared in the new book on the ways of a place: steps as (cell, label), labels that lead nowhere, and ends that are heard."""
    gone, missing, heard = set(), set(), set()
    while story is not None:
        told = data["stories"][story]
        start = told["x"] if told["lead"] == 1 else told["y"]
        followers = [told] if told["lead"] == 1 else told.get("ways", [])
        for way in followers:
            for labels, key in ("w", "wp"), ("v", "vp"):
                cells = [start, *way.get(key, [])]
                gone |= set(zip(cells, told.get(labels, [])))
                heard |= {cells[-1]} if told["kind"] != "way" else set()
        if told["lead"] == 0 and "stuck" in told:
            labels = told["v" if told.get("which") else "w"]
            cells = [start, *told["stuck"]]
            gone |= set(zip(cells, labels[:len(cells) - 1]))
            missing.add((cells[-1], labels[len(cells) - 1]))
        story = told["ways"][0].get("sub") if "ways" in told else None
    return gone, missing, heard


def is_on(fault, number, ways):
    gone, missing, heard = ways
    kind, cell, what, *_ = fault
    if kind == "sound":
        return number[cell] in heard
    return (number[cell], what) in (missing if kind == "lost" else gone)
