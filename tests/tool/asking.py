"""Calls of the command in a folder of files, and what is expected of them. Each call is a process of its own."""
import re
from pathlib import Path

from books import Book
from calls import call
from tally import Tally

LOOP = Book([5], [(0, 1, 0)])
PAIR = Book([5, 6], [(0, 1, 1), (1, 1, 0)])
THREE = Book([5, 5, 6], [(0, 1, 1), (0, 1, 2)])

YES = "Yes. Every one of the {} old cells has a partner in the new book."
NO = "No. {} of {} old cells have no partner in the new book."
COVERED = "Yes. Every one of the {} old cells is covered by a cell of the new book."
UNCOVERED = "No. {} of {} old cells are covered by no cell of the new book."

# What is never said: a stack trace, or the words for what no arguments and files should bring about.
NEVER = re.compile(r'Traceback|File "|fault of the program|Error\b')


class Asking:
    def __init__(self, tally, folder):
        self.tally, self.folder = tally, Path(folder)
        for name, book in ("loop.book", LOOP), ("pair.book", PAIR), ("three.book", THREE):
            self.put(name, book)

    def put(self, name, content):
        """Writes a book, or bytes."""
        (self.folder / name).write_bytes(content.data() if isinstance(content, Book) else content)

    def run(self, *arguments):
        got = call(*arguments, folder=self.folder)
        self.tally.check(not NEVER.search(got.out + got.err), f"{arguments}: a stack trace", got)
        return got

    def answers(self, status, first, *arguments):
        """The status, and the first line on standard output; nothing on standard error."""
        got = self.run(*arguments)
        line = got.out.split("\n")[0]
        self.tally.check((got.status, line, got.err) == (status, first, ""), f"{arguments}: expected {status}, {first!r}", got)
        return got

    def declines(self, status, said, *arguments):
        """The status, nothing on standard output, and words (a pattern) on standard error, in lines that end."""
        got = self.run(*arguments)
        good = got.status == status and got.out == "" and re.search(said, got.err, re.S) and got.err.endswith("\n")
        self.tally.check(good, f"{arguments}: expected {status}, and an error like {said!r}", got)

    def files(self):
        return sorted(path.name for path in self.folder.iterdir())


def everything(folder, parts):
    """Tries each part in a folder of its own."""
    tally = Tally("statuses")
    for part in parts:
        inner = Path(folder) / part.__name__
        inner.mkdir()
        part(tally, inner).everything()
    return tally.end(f"{tally.checked} checks of calls with good, bad and damaged files and arguments")
