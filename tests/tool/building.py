"""The library is built where it is missing or old, which is said, and used as it is where it is there. A stand-in takes the place of the kit
(rt): it puts the archive there that is built already."""
import os
import shutil
import subprocess
from pathlib import Path

from books import Book
from calls import ROOT
from tally import Tally

ARCHIVE = ROOT / "target" / "staticlib" / "libcapi.a"


class Building:
    def __init__(self, folder):
        self.tally, self.root, self.tools = Tally("building"), Path(folder) / "copy", Path(folder) / "tools"
        self.root.mkdir()
        self.tools.mkdir()
        shutil.copy(ROOT / "cuhnavel", self.root)
        shutil.copytree(ROOT / "tool", self.root / "tool", ignore=shutil.ignore_patterns("__pycache__"))
        (self.root / "crates" / "some" / "src").mkdir(parents=True)
        self.source = self.root / "crates" / "some" / "src" / "lib.rt"
        self.source.write_text("")
        (self.root / "crates" / "capi").mkdir()
        (self.root / "crates.txt").write_text("")
        (self.root / "some.book").write_bytes(Book([5], [(0, 1, 0)]).data())

    def stands_in(self, text):
        (self.tools / "rt").write_text(f"#!/bin/sh\necho \"$*\" >>'{self.tools}/asked'\n{text}\n")
        (self.tools / "rt").chmod(0o755)
        (self.tools / "asked").write_text("")

    def run(self, path=None):
        environment = {k: v for k, v in os.environ.items() if k not in ("LIBRARY_BUILT", "CUHNAVEL_LIBRARY")}
        environment["PATH"] = path or f"{self.tools}:{os.environ['PATH']}"
        arguments = [self.root / "cuhnavel", "compare", "some.book", "some.book", "--brief"]
        done = subprocess.run(arguments, cwd=self.root, env=environment, capture_output=True, text=True)
        self.tally.check("Traceback" not in done.stderr, "a stack trace", done.stderr)
        return done.returncode, done.stdout, done.stderr, (self.tools / "asked").read_text()

    def answered(self, what, built):
        """It answers yes; it builds first, and says so, or it says nothing."""
        status, out, err, asked = self.run()
        good = status == 0 and out.startswith("Yes. ") and (asked == "lib\n" and "librar" in err if built else asked == "" and err == "")
        self.tally.check(good, what, status, out, err, asked)
        (self.tools / "asked").write_text("")

    def fails(self, what):
        status, out, err, _ = self.run()
        self.tally.check(status == 2 and out == "" and "librar" in err, what, status, out, err)

    def no_python(self):
        """A Python that cannot be run, or is too old: its status, which may be that of an answer, is not passed on."""
        (self.tools / "python3").write_text("#!/bin/sh\necho some words; exit 1\n")
        (self.tools / "python3").chmod(0o755)
        status, out, err, _ = self.run()
        self.tally.check(status == 2 and out == "" and "python3" in err, "no Python that can be run", status, out, err)
        (self.tools / "python3").unlink()

    def everything(self):
        archive = self.root / "target" / "staticlib" / "libcapi.a"
        puts = f"mkdir -p out && cp '{ARCHIVE}' out/"
        self.stands_in("echo some words; echo no proof >&2; exit 1")
        self.fails("a library that cannot be proved")
        self.stands_in("exit 0")
        self.fails("a kit that builds nothing")
        self.stands_in("mkdir -p out; echo no archive >out/libcapi.a")
        self.fails("an archive that cannot be linked")
        archive.unlink()
        self.stands_in(puts)
        self.answered("built where it is missing", True)
        self.answered("there, so not built again", False)
        os.utime(self.source, (archive.stat().st_mtime + 5,) * 2)
        self.stands_in(puts)
        self.answered("built again where it is older than its sources", True)
        self.no_python()
        return self.tally.end("the library is built where it is missing or old, and what fails is said")
