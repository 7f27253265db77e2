"""Files of names, good and damaged: their names are told, or an error; never a stack trace, and never a name that steers the terminal."""
import os

from asking import THREE, Asking

GOOD = "# names\n\n  # more\nlabel 1 look up\ncell 0 I am “hungry”\ncell 1 <b>tea</b> & \"milk\"\ncell 2  room #5 \n"
ODD = [
    b"\xff\xfe\0c", b"cell 0 \xc3(\n", b"cell one tea\n", b"cell 0\n", b"tea\n", b"cell 0 a\0b\n", b"label -1 x\n", b"cell " + b"9" * 5000 + b" x\n",
    b"cell 0 \x1b[31mred\n", b"cell 0 a\x07b\n", "cell 0 a\u202eb\n".encode(), "cell 0 a\u2028b\n".encode(), b"cell 0 " + b"x" * 100_000 + b"\n",
    b"cell 0 a\r\ncell 1 b\r\n", b"\xef\xbb\xbfcell 0 tea\n", b"cell 0 a\ncell 0 b\n", b"cell 99 x\nlabel 70000 y\n", bytes(3_000_000), b"",
    "cell 0 \ud800\n".encode("utf-8", "surrogatepass"), "cell ² x\n".encode(),
]


class NameFiles(Asking):
    def everything(self):
        self.put("named.book", THREE)
        self.told()
        for names in ODD:
            self.odd(names)
        os.remove(self.folder / "named.names")
        os.mkdir(self.folder / "named.names")
        self.declines(2, "named.names", "show", "named.book")
        os.rmdir(self.folder / "named.names")
        os.symlink("named.names", self.folder / "named.names")
        self.declines(2, "named.names", "show", "named.book")
        self.put("odd\x1b[31m.book", THREE)
        self.put("odd\x1b[31m.names", b"tea\n")
        got = self.run("show", "odd\x1b[31m.book")
        self.tally.check(got.status == 2 and "odd?[31m.names: line 1" in got.err and "\x1b" not in got.err, "the name of a file of names", got)

    def told(self):
        self.put("named.names", GOOD.encode())
        for arguments in ["show", "named.book"], ["compare", "named.book", "pair.book", "--partners"]:
            got = self.run(*arguments)
            good = got.status < 2 and "look up" in got.out and "I am “hungry”" in got.out and "“room #5”" in got.out
            self.tally.check(good, f"{arguments} says names", got)
            got = self.run(*arguments, "--no-names")
            self.tally.check(got.status < 2 and "look up" not in got.out and "hungry" not in got.out, f"{arguments} --no-names", got)

    def odd(self, names):
        self.put("named.names", names)
        for arguments in ["show", "named.book"], ["compare", "named.book", "pair.book"], ["page", "named.book", "pair.book", "-o", "named.html"]:
            got = self.run(*arguments)
            declined = got.status == 2 and got.out == "" and "named.names" in got.err
            answered = got.status in (0, 1) and got.out and got.err == ""
            self.tally.check(declined or answered, f"{arguments[0]} with names {names[:30]!r}", got)
            steering = set("\x1b\x07\0\u202e") & set(got.out + got.err)
            self.tally.check(not steering, f"{arguments[0]}: names {names[:20]!r} steer the terminal", got)
        self.tally.check(self.run("check", "named.book").status == 0, "check does not ask for names")
