#!/usr/bin/env python3
"""Moves the files of theorems of a crate from specs/ to proofs/, where an edit of a definition below them reads as refused, and turns their paths everywhere.

usage: python3 tools/port_laws.py CRATE FILE..       at the top of the repository; it can be run again, for files that cite the old paths

A definition that such a file holds and that an edit is of stays in specs/, in a file of the same name: that is done by hand.
"""

import glob
import os
import re
import subprocess
import sys

crate, *names = sys.argv[1:]
for n in names:
    old, new = f"crates/{crate}/specs/{n}.antt", f"crates/{crate}/proofs/{n}.antt"
    if os.path.exists(old) and not os.path.exists(new):
        os.makedirs(os.path.dirname(new), exist_ok=True)
        subprocess.run(["git", "mv", old, new], check=True)
        for lib, add in ((f"crates/{crate}/specs/Lib.antt", False), (f"crates/{crate}/proofs/Lib.antt", True)):
            text = open(lib).read() if os.path.exists(lib) else ""
            line = f"pub mod {n}\n"
            text = text + line if add else text.replace(line, "")
            open(lib, "w").write(text)
path = re.compile(r"Rattle\.%s\.specs\.(%s)\b" % (crate, "|".join(names)))
for f in glob.glob("crates/*/**/*", recursive=True):
    if "/out/" in f or not f.endswith((".antt", ".rt", ".edit")):
        continue
    text = open(f, encoding="utf-8").read()
    new = path.sub(lambda m: f"Rattle.{crate}.proofs.{m.group(1)}", text)
    if new != text:
        open(f, "w", encoding="utf-8").write(new)
