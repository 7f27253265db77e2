"""Where the code of a library lies in a program, for bench/beside. A processor takes code by lines of 64 bytes, functions begin at any multiple of 16, and
where in a line a short loop lies, which what is linked before it decides, makes up to half of its time. So a library is measured at all four places."""
import os
import shutil
import subprocess
import sys

LINE = 64
PLACES = range(0, LINE, 16)


def placed(library, place, folder):
    """A folder with a file libcapi.a whose code is the library's, so many bytes further on from the beginning of a line."""
    shutil.rmtree(folder, ignore_errors=True)
    os.makedirs(folder)
    with open(f"{folder}/before.s", "w") as source:
        source.write(f'.section .text.before,"axR",@progbits\n.balign {LINE}\n.skip {LINE + place}\n.section .note.GNU-stack,"",@progbits\n')
    subprocess.run(["as", f"{folder}/before.s", "-o", f"{folder}/before.o"], check=True)
    subprocess.run(["ld", "-r", f"{folder}/before.o", "--whole-archive", library, "-o", f"{folder}/all.o"], check=True)
    subprocess.run(["ar", "rcs", f"{folder}/libcapi.a", f"{folder}/all.o"], check=True)
    return folder


def see(programs):
    """Ends with words where the code of a library does not lie at as many places as it should."""
    seen = set()
    for program in programs:
        symbols = subprocess.run(["nm", program], check=True, capture_output=True, text=True).stdout.splitlines()
        seen.add(max(int(line.split()[0], 16) for line in symbols if "cuhnavel_" in line) % LINE)
    if len(seen) != len(PLACES):
        sys.exit(f"beside: the library's code lies at {len(seen)} of {len(PLACES)} places")
