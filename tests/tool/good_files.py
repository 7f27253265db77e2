"""What the command says of good books."""
import os
import re
import subprocess

from asking import COVERED, LOOP, NO, UNCOVERED, YES, Asking
from books import Book
from calls import COMMAND, ROOT, call


class GoodFiles(Asking):
    def everything(self):
        self.put("right.book", Book([5, 5], [(0, 1, 1)]))
        self.put("wide.book", Book([5, 5, 6], [(0, 1, 1), (0, 65535, 2)], 2))
        self.put("silent.book", Book([0, 0], [(0, 1, 1)]))
        self.compared()
        self.one_cell()
        self.shown()
        self.from_anywhere()
        self.examples()

    def compared(self):
        self.answers(0, YES.format(3), "compare", "three.book", "right.book", "--bound", "0")
        self.answers(0, YES.format(3), "compare", "three.book", "right.book", "--bound=0")
        self.answers(0, YES.format(1), "compare", "loop.book", "pair.book", "--bound", "0")
        self.answers(1, NO.format(2, 2), "compare", "pair.book", "loop.book")
        self.answers(0, YES.format(3), "compare", "wide.book", "wide.book")
        self.answers(0, YES.format(2), "compare", "silent.book", "silent.book")
        self.answers(0, COVERED.format(1), "compare", "loop.book", "pair.book", "--one-way", "--bound", "0")
        self.answers(1, UNCOVERED.format(2, 2), "compare", "pair.book", "loop.book", "--one-way")
        brief = self.answers(1, NO.format(2, 2), "compare", "pair.book", "loop.book", "--brief")
        self.tally.check(brief.out.count("\n") == 1, "--brief is one line", brief.out)
        whole = self.answers(1, NO.format(2, 2), "compare", "pair.book", "loop.book", "--partners")
        self.tally.check("ask" in whole.out and "notation" in whole.out, "the report asks", whole.out)
        nobody = self.answers(1, NO.format(2, 2), "compare", "silent.book", "pair.book", "--partners")
        self.tally.check("No old cell has a partner." in nobody.out, "--partners where there is none", nobody.out)
        paired = self.answers(0, YES.format(3), "compare", "three.book", "right.book", "--bound", "0", "--partners")
        self.tally.check("0 = 0" in paired.out and "1, 2 = 1" in paired.out, "--partners tells partners", paired.out)

    def examples(self):
        """The vocabulary of the examples, and what a studio returned: both mistakes are told, by their names."""
        book = lambda name: str(ROOT / "examples" / f"voice-{name}.book")
        got = self.answers(1, NO.format(20, 39), "compare", book("old"), book("new"))
        for told in "long blink leads nowhere", "“with milk”", "“with sugar”", "Can the two sound different?", "the same":
            self.tally.check(told in got.out, f"the mistakes in the example: {told}", got.out)
        good = self.answers(0, YES.format(39), "compare", book("old"), book("mended"))
        self.tally.check("other names" not in good.out, "the names of all partners agree", good.out)
        covered = self.answers(0, COVERED.format(39), "compare", book("old"), book("grown"), "--one-way", "--partners")
        self.tally.check("35 “yes”, 37 “yes” are covered by 41 “yes”, " in covered.out, "the likest new cell comes first", covered.out)
        self.tally.check("other names" not in covered.out, "each old cell is covered by one of its name", covered.out)
        grown = self.run("compare", book("old"), book("grown"))
        self.tally.check(grown.status == 1, "the grown book offers more")
        told = "other names" in grown.out and "  6 “tea” = 31 “tea”, 36 “let us play”\n" in grown.out
        self.tally.check(told, "partners with other names", grown.out)
        self.tally.check("(yes at old 1, no at new 22)" in grown.out, "of a question that begins with not both answers are told", grown.out)

    def one_cell(self):
        """Of one old cell without partner the line may say has or have."""
        got = self.run("compare", "three.book", "right.book", "--bound", "1")
        line, have = got.out.split("\n")[0], NO.format(1, 3)
        self.tally.check(got.status == 1 and line in (have, have.replace("have", "has")), "one old cell without partner", got)

    def shown(self):
        for book, n, e in ("three.book", 3, 2), ("wide.book", 3, 2), ("loop.book", 1, 1):
            got = self.run("check", book)
            self.tally.check(got.status == 0 and re.search(rf"\b{n} cells?\b.*\b{e} links?\b", got.out), f"check {book}", got)
            got = self.run("show", book)
            self.tally.check(got.status == 0 and all(re.search(rf"^cell {k}\b", got.out, re.M) for k in range(n)), f"show {book}", got)
        self.tally.check("65535" in self.run("show", "wide.book").out, "show tells a wide label")
        self.tally.check("silent" in self.run("show", "silent.book").out, "show tells silent cells")

    def from_anywhere(self):
        """From other folders, through a symbolic link, and with names of files that look like something else."""
        os.symlink(COMMAND, self.folder / "link")
        (self.folder / "some books").mkdir()
        for name in "-n.book", "a b*?.book", "ü\n.book", "--bound":
            (self.folder / "some books" / name).write_bytes(LOOP.data())
        for name in "./-n.book", "a b*?.book", "ü\n.book", "./--bound", str(self.folder / "loop.book"):
            got = call("compare", name, "../pair.book", "--bound", "0", folder=self.folder / "some books")
            self.tally.check((got.status, got.out.split("\n")[0]) == (0, YES.format(1)), f"compare {name!r} from another folder", got)
        for program in "./link", str(self.folder / "link"):
            got = subprocess.run([program, "compare", "loop.book", "pair.book", "--brief"], cwd=self.folder, capture_output=True, text=True)
            self.tally.check(got.returncode == 1, "through a symbolic link", got)
