"""Whatever a page or a report shows of a comparison is so: partners, questions with their words and answers, ways to practise. Over random books
of both versions, with silent cells, wide labels and hidden cells, two-sided and one-way."""
import re
from pathlib import Path

import books
import copies
import pages
import questions
from books import seeded
from partners import partners
from questions import Meaning
from said import Said
from spoken import CUT, Spoken
from tally import Tally
from ways import Ways
from worded import text_of


class Shown:
    """A comparison as a page and a report show it."""

    def __init__(self, tally, what, old, new, bound, one_way):
        self.tally, self.what, self.books, self.bound, self.one_way = tally, what, (old, new), bound, one_way
        self.meaning = [Meaning(old), Meaning(new)]
        self.matched = None

    def check(self, good, *more):
        return self.tally.check(good, self.what, *more)

    def parts(self, p, i, j):
        """The question is true at old cell i and false at new cell j."""
        return i in self.meaning[0].where(p) and j not in self.meaning[1].where(p)

    def page(self, page):
        data = pages.data_of(page)
        entries = pages.entries_of(data)
        for book, side in zip(self.books, data["books"]):
            self.check(side["num"] == book.cells and side["rec"] == [book.recordings[x] for x in book.cells], "cells and recordings of the page")
        asked = [entries[q["entry"]] for q in data["questions"]]
        labels = {f"label {label}": label for book in self.books for label in book.labels()}
        for q, p in zip(data["questions"], asked):
            self.text(q["text"], q["length"], p)
            self.check(questions.within(p, self.bound), "a question outside the bound", q["text"])
            self.check(not self.one_way or questions.without_not(p), "a question with not, one-way", q["text"])
            q["meant"] = self.words(q["ask"], labels)
        self.pairs(data, asked)
        self.without_scripts(page)
        self.lists(page, data)
        return data

    def words(self, ask, labels):
        """What the words of a question mean; None where they stop short."""
        words = text_of(ask)
        return None if any(cut in words for cut in CUT) else Spoken(words, labels).asked()

    def text(self, text, length, p):
        """The notation is the question's, or the beginning of it, with its length."""
        if text.endswith("…"):
            said = length.replace(",", "").split()[0]
            about = length.startswith("about 10 to the power of") and p.length >= 10 ** 15
            self.check(said == str(p.length) or about, "a question's length", text, length)
            self.check(p.length > 10 ** 6 or questions.write(p).startswith(text[:-1]), "a cut text", text)
        else:
            self.check(questions.read(text) is p, "another question's text", text, questions.write(p) if p.length < 5000 else p.length)

    def pairs(self, data, asked):
        """Every pair: its question parts it, its words have the answers that are shown, and its ways are ways."""
        old, new = (book.cells for book in self.books)
        ways = Ways(self.tally, self.what, self.books, data)
        self.check(len(data["pair"]) == len(data["story"]) == len(old) * len(new), "pairs of the page")
        for place, (k, story) in enumerate(zip(data["pair"], data["story"])):
            i, j = divmod(place, len(new))
            if k < 0:
                continue
            self.check(self.parts(asked[k], old[i], new[j]), f"old {old[i]}, new {new[j]}: not parted by", data["questions"][k]["text"])
            for p in data["questions"][k]["meant"] or ():
                answers = ["yes" if cell in m.where(p) else "no" for cell, m in zip((old[i], new[j]), self.meaning)]
                self.check(answers == data["questions"][k]["answers"], "words with other answers", data["questions"][k], old[i], new[j])
            ways.pair(i, j, story)

    def without_scripts(self, page):
        """The ways of each place, as they are told where no script runs, and the questions of the page's lists."""
        texts = pages.Texts(page)
        said = Said(self.tally, self.what + ", without scripts", self.books, self.meaning, None)
        for told in texts.all("pre"):
            said.story(told.splitlines())
        for text in texts.all("code"):
            if re.match(r"[<!(]", text) and not text.endswith("…") and not re.search(r"[a-z]|/5\[p", text):
                self.check(questions.write(questions.read(text)) == text, "notation that cannot be read", text)

    def lists(self, page, data):
        """The places, the old cells without partner and the questions, as the page lists them, are of its pairs."""
        alone, listed = [], []
        for text in re.split(r"</tr>|</article>", page):
            piece = text[max(text.rfind("<article"), text.rfind("<tr")):]
            pair, row = re.search(r'data-show="(\d+),(\d+)"', piece), re.search(r"<td class=r>(\d+)</td>.*data-question=(\d+)", piece, re.S)
            if pair:
                i, j = map(int, pair.groups())
                q = data["questions"][data["pair"][i * len(data["books"][1]["num"]) + j]]
                self.check(q["ask"] in piece and re.findall(r"<b>(yes|no)</b>", piece) == q["answers"], f"old {i}, new {j} in a list", piece, q)
                alone += [] if piece.startswith("<article") else [[i, j]]
            elif row:
                count, k = map(int, row.groups())
                good = data["questions"][k]["ask"] in piece and count == data["questions"][k]["pairs"] == data["pair"].count(k)
                self.check(good, "the list of questions", piece)
                listed.append(k)
        self.check(alone == data["closest"], "the list of old cells without partner", alone, data["closest"])
        self.check(listed == list(range(len(data["questions"]))), "the list of questions", listed)

    def definition(self, data):
        """The pairs without question are those that the definition matches."""
        old, new = (book.cells for book in self.books)
        given = {(old[k // len(new)], new[k % len(new)]) for k, q in enumerate(data["pair"]) if q < 0}
        known = partners(*self.books, self.bound, self.one_way)
        self.check(given == known, "matched pairs", sorted(given), sorted(known))

    def alone(self, data):
        """The old cells without partner, by the page's pairs."""
        old, width = self.books[0].cells, len(self.books[1].cells)
        return {x for i, x in enumerate(old) if min(data["pair"][i * width:(i + 1) * width]) >= 0}

    def report(self, text, alone):
        first = text.split("\n")[0]
        n = len(self.books[0].cells)
        yes = f"Every one of the {n} old cells {'is covered by a cell of' if self.one_way else 'has a partner in'} the new book."
        no = f"{len(alone)} of {n} old cells {'are covered by no cell of' if self.one_way else 'have no partner in'} the new book."
        one = no.replace(" are ", " is ").replace(" have ", " has ") if len(alone) == 1 else no
        self.check(first in ([f"No. {no}", f"No. {one}"] if alone else [f"Yes. {yes}"]), "the first line", first)
        for name, book in zip(("old", "new"), self.books):
            links = sum(len(ends) for ends in book.targets.values())
            self.check(re.search(rf"^  {name} +{len(book.cells)} cells?, {links} links? ", text, re.M), "the books' sizes", text[:300])
        return Said(self.tally, self.what, self.books, self.meaning, alone).report(text)


def two_books(rnd, case):
    """Small books of all kinds; one in ten a vocabulary with a copy that has mistakes, and one in ten a larger book where a label leads to many cells."""
    if case % 10 == 8:
        old, copy = copies.near_copy(rnd, rnd.randint(3, 5))
        for _ in range(rnd.randint(0, 2)):
            copy = copies.make(copy, copies.mistake(rnd, copy))
        return old, copy.book(rnd)[0]
    if case % 10 == 9:
        old = books.random_book(rnd, rnd.randint(8, 16), rnd.choice([1.5, 2.5, 4]), rnd.randint(1, 2), rnd.randint(1, 6), rnd.choice([0, 0.2]))
        return old, books.changed(rnd, books.renumbered(rnd, old)[0])
    return books.any_pair(rnd, rnd.choice([3, 5, 7, 10]))


class Comparisons:
    """Many random comparisons."""

    def __init__(self, worker, folder, count):
        self.tally, self.worker, self.folder, self.count = Tally("shown"), worker, Path(folder), count
        self.questions = self.pairs = self.places = self.ways = 0

    def everything(self):
        for case in range(self.count):
            self.case(seeded("shown", case), case)
        return self.tally.end(
            f"{self.count} comparisons: {self.pairs} pairs with {self.questions} questions, each confirmed and its words answered as shown; "
            f"{self.places} places and {self.ways} ways to practise are so in links and recordings")

    def case(self, rnd, case):
        old, new = two_books(rnd, case)
        some = lambda n: sorted(rnd.sample(range(n), rnd.randint(0, n - 1))) if rnd.random() < 0.25 else []
        hidden = [some(len(book.recordings)) for book in (old, new)]
        bound, one_way = rnd.randint(0, 4), rnd.random() < 0.4
        options = ["--bound", str(bound), "--no-names"] + ["--one-way"] * one_way
        for name, cells in zip(("--hide-old", "--hide-new"), hidden):
            options += [name, ",".join(map(str, cells))] if cells else []
        paths = [self.folder / "shown-old.book", self.folder / "shown-new.book"]
        for path, book in zip(paths, (old, new)):
            path.write_bytes(book.data())
        what = f"case {case} {' '.join(options)}"
        shown = Shown(self.tally, what, old.seen_without(hidden[0]), new.seen_without(hidden[1]), bound, one_way)
        page = self.worker.call("page", *paths, "-o", self.folder / "shown.html", "--no-graphviz", *options)
        report = self.worker.call("compare", *paths, *options)
        if self.tally.check(page.status == report.status in (0, 1) and page.err == report.err == "", what, page, report):
            self.told(shown, report)

    def told(self, shown, report):
        data = shown.page((self.folder / "shown.html").read_text())
        alone = shown.alone(data)
        shown.check((report.status == 1) == bool(alone), "the status", report.status, alone)
        self.places += shown.report(report.out, alone)
        if len(shown.books[0].cells) <= 5 and len(shown.books[1].cells) <= 5 and shown.bound <= 2:
            shown.definition(data)
        self.questions += len(data["questions"])
        self.pairs += len(data["pair"])
        self.ways += sum(1 + len(told.get("ways", [])) for told in data["stories"])
