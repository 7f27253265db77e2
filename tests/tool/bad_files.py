"""What the command says of files that are no books, and of what is no file: an error in words, with the refusal's number and where."""
import os

import books
from asking import LOOP, PAIR, Asking
from books import Book, seeded


def damaged():
    """Name, bytes and refusal."""
    good = PAIR.data()
    sized = lambda data: len(data).to_bytes(4, "big") + data[4:]
    yield "empty", b"", 1
    yield "seven", good[:7], 1
    yield "cut", good[:-1], 2
    yield "long", good + b"\n", 2
    yield "text", b"this is no book at all\n", 2
    yield "huge", bytes(3_000_000), 2
    yield "version0", good[:4] + b"\0" + good[5:], 3
    yield "version3", good[:4] + b"\3" + good[5:], 3
    yield "version2", good[:4] + b"\2" + good[5:], 5
    yield "nocells", good[:5] + b"\0" + good[6:], 4
    yield "cells65", sized(good[:5] + bytes([65]) + good[6:8] + bytes(4 * 65) + good[16:]), 4
    yield "links513", sized(good[:6] + (513).to_bytes(2, "big") + good[8:16] + bytes(3 * 513)), 4
    yield "links3", good[:6] + b"\0\3" + good[8:], 5
    yield "cell200", good[:-1] + bytes([200]), 6
    yield "twice", sized(good[:6] + b"\0\3" + good[8:] + good[-3:]), 7
    yield "falling", good[:16] + good[19:22] + good[16:19], 7


class BadFiles(Asking):
    def everything(self):
        for name, data, refusal in damaged():
            assert books.read(data) == refusal, name
            self.put(name + ".book", data)
            self.refused(name, rf"{name}\.book.*\(refusal {refusal}\)")
        self.declines(1, r"[Ll]ink 1\b.*byte 19\b.*cell 200\b.*cells 0 to 1.*\(refusal 6\)", "check", "cell200.book")
        self.no_files()
        self.closed()
        self.any_bytes()

    def refused(self, name, where):
        self.declines(1, where, "check", name + ".book")
        self.declines(1, where, "show", name + ".book")
        self.declines(2, "old.*" + where, "compare", name + ".book", "loop.book")
        self.declines(2, "new.*" + where, "compare", "loop.book", name + ".book")
        self.declines(2, where, "page", "loop.book", name + ".book", "-o", "no.html")
        self.tally.check(not (self.folder / "no.html").exists(), f"{name}: no page is written")

    def no_files(self):
        os.mkdir(self.folder / "folder")
        os.mkfifo(self.folder / "pipe")
        for name in "absent.book", "folder", "", "/dev/null", "/dev/zero", "pipe":
            for arguments in ["compare", name, "loop.book"], ["compare", "loop.book", name], ["page", name, "loop.book", "-o", "no.html"], \
                    ["check", name], ["show", name]:
                self.declines(2, name.partition(".")[0], *arguments)
        self.tally.check(not (self.folder / "no.html").exists(), "no page is written")

    def closed(self):
        self.put("closed.book", LOOP)
        (self.folder / "closed.book").chmod(0)
        if os.access(self.folder / "closed.book", os.R_OK):
            print("statuses: left out, since root can read every file: a file that cannot be read")
            return
        for arguments in ["check", "closed.book"], ["show", "closed.book"], ["compare", "closed.book", "loop.book"]:
            self.declines(2, "closed", *arguments)

    def any_bytes(self):
        """Damaged copies of a book, byte by byte: the answer is a book, or the refusal that the papers fix."""
        rnd = seeded("damage")
        good = Book([5, 6, 0], [(0, 1, 1), (0, 2, 2), (1, 1, 0)]).data()
        for _ in range(40):
            data = bytearray(good)
            for _ in range(rnd.randint(1, 2)):
                data[rnd.randrange(len(data))] = rnd.choice([0, 1, 2, 3, 5, 255, rnd.randrange(256)])
            known = books.read(bytes(data))
            self.put("damaged.book", bytes(data))
            got = self.run("check", "damaged.book")
            accepted = isinstance(known, Book)
            good_answer = got.status == 0 if accepted else got.status == 1 and f"(refusal {known})" in got.err
            self.tally.check(good_answer, f"{'a book' if accepted else f'refusal {known}'}: {data.hex()}", got)
