"""What the command says of its arguments, good and bad, and of refusals."""
import re

from asking import Asking

MISUSED = [
    "comprae", "--version-of", "compare", "compare loop.book", "compare loop.book pair.book three.book", "compare loop.book pair.book --frob",
    "compare loop.book pair.book -x", "compare loop.book pair.book --bound", "compare loop.book pair.book --hide-old",
    "compare loop.book pair.book --bound 1 --bound 2", "page", "page loop.book pair.book", "page loop.book -o no.html", "page loop.book pair.book -o",
    "page loop.book pair.book -o=", "page loop.book pair.book -o no.html --partners", "check", "check loop.book pair.book",
    "check loop.book --bound 1", "show", "show loop.book pair.book", "show loop.book --frob", "explain x", "explain 1 --frob",
]
NO_BOUNDS = ["18446744073709551617", "one", "", "-1", "+1", "1.0", "0x1", "²", "1 2", "٣"]
NO_CELLS = ["x", "0-", "-1", "0,,1", ",", "", "1-0", "0x1", "²", "0;1", "99999999999999999999-999999999999999999999999"]
NOT_THERE = ["3", "64", "0-3", "4294967296", "0-99999999999", "63", "2,3"]
UNNAMED = range(15, 20)  # numbers that no refusal has


class Arguments(Asking):
    def everything(self):
        for arguments in ["--help"], ["help"], ["-h"], ["compare", "--help"]:
            usage = self.run(*arguments)
            good = usage.status == 0 and all(word in usage.out for word in ("compare", "page", "check", "show", "explain"))
            self.tally.check(good, f"{arguments}", usage)
        got = self.run()
        self.tally.check(got.status == 2 and "compare" in got.out + got.err, "no arguments", got)
        for line in MISUSED:
            self.declines(2, ".", *line.split())
        self.tally.check("no.html" not in self.files(), "no page is written")
        self.bounds()
        self.hidden()
        self.explained()

    def bounds(self):
        for bound in "5", "64", "999999999":
            self.declines(2, r"refusal 20\b", "compare", "loop.book", "pair.book", "--bound", bound)
        for bound in NO_BOUNDS:
            self.declines(2, "bound", "compare", "loop.book", "pair.book", "--bound", bound)

    def hidden(self):
        for cells in NO_CELLS:
            self.declines(2, "hide-old", "compare", "three.book", "pair.book", "--hide-old", cells)
            self.declines(2, "hide", "show", "three.book", "--hide", cells)
        for cells in NOT_THERE:
            self.declines(2, "31|hide", "compare", "three.book", "pair.book", "--hide-old", cells)
            self.declines(2, "31|hide", "show", "three.book", "--hide", cells)
        self.declines(2, r"old book.*refusal 31\b", "compare", "three.book", "pair.book", "--hide-old", "3")
        self.declines(2, r"new book.*refusal 31\b", "compare", "three.book", "pair.book", "--hide-new", "2")
        for cells in "0", "0,1", "1-2", "0,2", "1, 2", "0,0":
            got = self.run("compare", "three.book", "pair.book", "--hide-old", cells, "--brief")
            good = got.status in (0, 1) and re.match(r"(Yes|No)\. .* of (the )?[12] old cells ", got.out)
            self.tally.check(good, f"--hide-old {cells}", got)
        for option, all_cells in ("--hide-old", "0-2"), ("--hide-new", "0-1"):
            self.declines(2, "hidden", "compare", "three.book", "pair.book", option, all_cells)

    def explained(self):
        numbers = [k for k in range(1, 32) if k not in UNNAMED]
        whole = self.run("explain")
        told = [int(k) for k in re.findall(r"^ *(\d+)  ", whole.out, re.M)]
        self.tally.check(whole.status == 0 and told == numbers, "explain tells every refusal", whole)
        for k in numbers[::3]:
            one = self.run("explain", str(k))
            self.tally.check(one.status == 0 and re.match(rf" *{k}  ..", one.out) and one.out in whole.out, f"explain {k}", one)
        for k in "0", "15", "32", "99999999999999999999", "-1", "":
            self.declines(2, ".", "explain", k)
