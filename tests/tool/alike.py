"""The same bytes from the same input: whatever the order of hashes and the folder, and again. And from books that differ in nothing but what is
hidden: the same bytes of the page, the report and what is printed."""
import shutil
from pathlib import Path

import books
from books import Book, seeded
from calls import call, seeded_call
from tally import Tally


class SameBytes:
    def __init__(self, folder, count):
        self.tally, self.folder, self.count = Tally("same bytes"), Path(folder), count

    def everything(self):
        for case in range(self.count):
            rnd = seeded("alike", case)
            self.case(*books.any_pair(rnd, 12), case, [[], ["--one-way"], ["--bound", "1"], ["--partners"]][case % 4])
        return self.tally.end(f"{self.count} comparisons give the same bytes with other hashes, from another folder, and again")

    def case(self, old, new, case, options):
        there, other = self.folder / "there", self.folder / "other"
        for folder in there, other:
            shutil.rmtree(folder, ignore_errors=True)
            folder.mkdir()
            (folder / "old.book").write_bytes(old.data())
            (folder / "new.book").write_bytes(new.data())
        (there / "old.names").write_text("cell 0 hello\nlabel 0 up\nlabel 1 down\n")
        (other / "old.names").write_text("cell 0 hello\nlabel 0 up\nlabel 1 down\n")
        paged = [x for x in options if x != "--partners"]
        made = [self.made(folder, seed, options, paged) for folder, seed in ((there, "1"), (other, "2718"), (there, None))]
        alike = made[0] == made[1] == made[2]
        self.tally.check(alike, f"case {case}: other bytes with other hashes, in another folder, or again", *(one[:2] for one in made))

    def made(self, folder, seed, options, paged):
        """What a report and a page come to, with this order of hashes."""
        (folder / "page.html").unlink(missing_ok=True)
        calls = [("compare", "old.book", "new.book", *options), ("page", "old.book", "new.book", "-o", "page.html", *paged)]
        said = [call(*arguments, folder=folder) if seed is None else seeded_call(seed, folder, *arguments) for arguments in calls]
        self.tally.check(all(got.status in (0, 1) and got.err == "" for got in said), f"{options}: answered", said)
        return (*said, (folder / "page.html").read_bytes())


class Secrecy:
    def __init__(self, worker, folder, count):
        self.tally, self.worker, self.folder, self.count = Tally("secrecy"), worker, Path(folder), count

    def everything(self):
        for case in range(self.count):
            self.case(seeded("secrecy", case), case)
        return self.tally.end(f"{self.count} pairs of books with other recordings, links and names at hidden cells give the same reports and pages")

    def case(self, rnd, case):
        old, new = books.any_pair(rnd, 9)
        words = [self.hidden(rnd, book) for book in (old, new)]
        if not any(words):
            words[0] = [0] if len(old.recordings) > 1 else []
        options = [x for name, cells in zip(("--hide-old", "--hide-new"), words) if cells for x in (name, listed(rnd, cells))]
        options += rnd.choice([[], ["--bound", "2"], ["--one-way"], ["--bound", "0", "--one-way"]])
        unseen, said = self.unseen(old, new, words=words), []
        for turn in range(2):
            for name, book, cells in zip(("old", "new"), (old, new), words):
                changed = otherwise(rnd, book, cells) if turn else book
                (self.folder / f"{name}.book").write_bytes(changed.data())
                names = self.names(rnd, book, cells, turn) + f"label {unseen} whispered {name if turn else turn}\n"
                (self.folder / f"{name}.names").write_text(names, encoding="utf-8")
            said.append(self.all_said(options))
        for what, one, two in zip(("report", "partners", "brief", "page", "old book", "new book", "page's file"), *said):
            self.tally.check(one == two, f"case {case}, {options}: another {what}", str(one)[:1200], str(two)[:1200])
        text = "".join(map(str, said[0]))
        self.tally.check("whispered" not in text, f"case {case}, {options}: a hidden name is shown")

    def hidden(self, rnd, book):
        cells = [x for x in range(len(book.recordings)) if rnd.random() < 0.3]
        return cells if len(cells) < len(book.recordings) else cells[1:]

    def unseen(self, *books, words):
        """A label that no link has that is seen, perhaps a hidden one; what it is called in either file is not told."""
        seen = {label for book, cells in zip(books, words) for x, label, y in book.links if x not in cells and y not in cells}
        named = {label for book in books for label in book.labels()[:2]}
        hidden = sorted({label for book in books for label in book.labels()} - seen - named)
        return next(label for label in [*hidden, *range(256)] if label not in seen | named)

    def names(self, rnd, book, hidden, turn):
        """Names of all cells; those of hidden cells differ from turn to turn."""
        lines = [f"label {label} way {label}" for label in book.labels()[:2]] + [f"cell {x} word {x}" for x in book.cells if x not in hidden]
        secret = [f"cell {x} whispered {turn} {'x' * rnd.randint(0, 90)}" for x in hidden]
        for line in secret if turn == 0 else secret[::2]:
            lines.insert(rnd.randint(0, len(lines)), line)
        return "\n".join(lines) + "\n"

    def all_said(self, options):
        paths = [self.folder / "old.book", self.folder / "new.book"]
        page = self.folder / "made.html"
        page.unlink(missing_ok=True)
        drawn = ["--no-graphviz"] * (len(options) % 4 > 0)  # most pages without Graphviz, which takes its time
        said = [self.worker.call("compare", *paths, *options, *more) for more in ([], ["--partners"], ["--brief"])]
        said.append(self.worker.call("page", *paths, "-o", page, *drawn, *options))
        hide = dict(zip(options[::2], options[1::2]))
        for path, name in zip(paths, ("--hide-old", "--hide-new")):
            said.append(self.worker.call("show", path, *(["--hide", hide[name]] if name in hide else [])))
        self.tally.check(all(got.status in (0, 1) for got in said), f"{options}: answered", said)
        return [*said, page.read_text()]


def listed(rnd, cells):
    """The cells as an option has them: 3,5-7"""
    text, k = [], 0
    while k < len(cells):
        end = k
        while end + 1 < len(cells) and cells[end + 1] == cells[end] + 1 and rnd.random() < 0.8:
            end += 1
        text.append(str(cells[k]) if end == k else f"{cells[k]}-{cells[end]}")
        k = end + 1
    return ",".join(text)


def otherwise(rnd, book, hidden):
    """The book with other recordings of hidden cells and other links at them; what is seen is the same."""
    recordings = [rnd.choice([0, 7, 2 ** 32 - 1, r]) if x in hidden else r for x, r in enumerate(book.recordings)]
    links = {(x, label, y) for x, label, y in book.links if x not in hidden and y not in hidden}
    cells, labels = range(len(recordings)), book.labels() + [rnd.randrange(256 ** book.version)]
    for _ in range(rnd.randint(0, 20) if hidden else 0):
        x, y = rnd.choice(hidden), rnd.choice(cells)
        links.add((x, rnd.choice(labels), y) if rnd.random() < 0.5 else (y, rnd.choice(labels), x))
    return Book(recordings, links, book.version)
