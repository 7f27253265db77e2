"""A page is written whole or not at all: what was there is left as it was when there is no answer, and nothing is left beside it."""
import os
import re
import signal
import subprocess
import time

from asking import LOOP, NEVER, NO, PAIR, Asking
from calls import COMMAND

# A program that runs another with files of at most 4,096 bytes.
SMALL_FILES = "import resource, signal, sys, os; signal.signal(signal.SIGXFSZ, signal.SIG_IGN); " \
              "resource.setrlimit(resource.RLIMIT_FSIZE, (4096, 4096)); os.execv(sys.argv[1], sys.argv[1:])"
DECLINED = ["pair.book cut.book", "absent loop.book", "pair.book loop.book --bound 9", "pair.book loop.book --frob",
            "pair.book loop.book --hide-old 7"]


class PageFiles(Asking):
    def everything(self):
        (self.folder / "folder").mkdir()
        self.put("cut.book", PAIR.data()[:-1])
        self.put("loop.names", b"cell 0 hello\n")
        self.before = self.files()
        self.written()
        self.left_alone()
        self.nowhere()
        self.over_books()
        self.no_room()
        self.output_closed()
        self.folder_gone()
        self.stopped()

    def page(self):
        """The page's bytes; None if there is no page."""
        return (self.folder / "page.html").read_bytes() if "page.html" in self.files() else None

    def same_files(self, what):
        good = self.files() == sorted(self.before + ["page.html"]) and not os.listdir(self.folder / "folder")
        self.tally.check(good, f"{what}: other files", self.files())

    def written(self):
        got = self.run("page", "pair.book", "loop.book", "-o", "page.html")
        good = got.status == 1 and got.out.startswith(NO.format(2, 2)) and "page.html" in got.out and got.err == ""
        self.tally.check(good, "page says the answer and the file", got)
        self.same_files("a page")
        page = self.page() or b""
        self.tally.check(page.startswith(b"<!DOCTYPE html>") and page.rstrip().endswith(b"</html>"), "a whole page")
        self.answers(1, NO.format(2, 2) + " See page.html.", "page", "pair.book", "loop.book", "-o=page.html")
        self.run("page", "pair.book", "loop.book", "-o", "page.html", "--no-graphviz")

    def left_alone(self):
        page = self.page()
        for line in DECLINED:
            self.declines(2, ".", "page", *line.split(), "-o", "page.html")
            self.tally.check(self.page() == page, f"{line}: the page is left as it was")
        self.same_files("declined")

    def nowhere(self):
        for out in "missing/page.html", "folder", "loop.book/page.html", "x" * 300 + ".html", "/proc/page.html", "/dev/full", "/dev/null", "folder/":
            self.declines(2, ".", "page", "pair.book", "loop.book", "-o", out)
        self.same_files("a page that cannot be written")

    def over_books(self):
        """A page does not take the place of what it is made of."""
        content = lambda name: (self.folder / name).read_bytes() if name in self.files() else None
        for over in "pair.book", "loop.book", "./loop.book", "loop.names", "pair.names":  # pair.names is not there yet
            kept = content(os.path.basename(over))
            self.declines(2, ".", "page", "pair.book", "loop.book", "-o", over)
            self.tally.check(content(os.path.basename(over)) == kept, f"page does not write over {over}")
            self.put("pair.book", PAIR)
            self.put("loop.book", LOOP)

    def no_room(self):
        page = self.page()
        got = subprocess.run(["python3", "-c", SMALL_FILES, COMMAND, "page", "pair.book", "loop.book", "-o", "page.html"], cwd=self.folder,
                             capture_output=True, text=True)
        self.tally.check(got.returncode == 2 and got.stderr and "Traceback" not in got.stderr, "no room for the page", got)
        self.same_files("no room for the page")
        self.tally.check(self.page() == page, "no room: the page is left as it was")

    def stopped(self):
        """Stopped at any time: no trace of the program's insides, no page but a whole one, and not the status of an answer."""
        usual = lambda: signal.signal(signal.SIGINT, signal.SIG_DFL)
        for turn in range(24):
            made = subprocess.Popen([COMMAND, "page", "pair.book", "loop.book", "-o", "stopped.html"], cwd=self.folder, stdout=subprocess.PIPE,
                                    stderr=subprocess.PIPE, text=True, start_new_session=True, preexec_fn=usual)
            time.sleep(0.015 * turn)
            os.killpg(made.pid, (signal.SIGINT, signal.SIGTERM)[turn % 2])
            out, err = made.communicate()
            answered = made.returncode == 1 and out.startswith("No.") and "stopped.html" in self.files()
            good = answered or made.returncode not in (0, 1) and out == ""
            self.tally.check(good and not re.search("Traceback|KeyboardInterrupt", err), f"stopped after {0.015 * turn:.3f} s", made.returncode, out, err)
            (self.folder / "stopped.html").unlink(missing_ok=True)
        self.same_files("stopped")

    def folder_gone(self):
        """From a folder that was removed nothing can be said but that; in no case is it the status of an answer that there is not."""
        for line, status in ("page {0}/pair.book {0}/loop.book -o page.html", 2), ("check pair.book", 2), ("compare pair.book loop.book", 2):
            gone = self.folder / "gone"
            gone.mkdir()
            got = subprocess.run(["sh", "-c", f"rmdir '{gone}'; '{COMMAND}' {line.format(self.folder)}"], cwd=gone, capture_output=True, text=True)
            good = got.returncode == status and got.stdout == "" and "cuhnavel: " in got.stderr
            self.tally.check(good and not NEVER.search(got.stderr), f"{line}: in a folder that was removed", got)

    def output_closed(self):
        """Output that cannot be written."""
        for end in "| true", "| head -c 0", ">&-", ">/dev/full":
            for line in "explain", "compare pair.book loop.book", "show pair.book", "check pair.book", "compare absent loop.book 2>&-":
                got = subprocess.run(["sh", "-c", f"'{COMMAND}' {line} {end}"], cwd=self.folder, capture_output=True, text=True)
                self.tally.check("Traceback" not in got.stderr and "Exception" not in got.stderr, f"{line} {end}", got)
                self.tally.check(">" not in end or got.returncode == 2, f"{line} {end}: the status", got)
