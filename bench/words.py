"""Libraries from before there were words that hide cells, for bench/alike and bench/beside."""
import os
import re
import shutil
import subprocess
import sys

# The functions that take words, or know of hidden places.
MOVED = ["cuhnavel_compare", "cuhnavel_compare_one_way", "cuhnavel_truth", "cuhnavel_claim", "cuhnavel_pair"]


def functions():
    """The library's functions, as the C header has them."""
    with open("include/cuhnavel.h") as header:
        return sorted(set(re.findall(r"\b(cuhnavel_\w+)\(", header.read())))


def takes_words(library):
    subprocess.run(["gcc", "-O1", "bench/probe.c", library, "-o", "target/bench/probe"], check=True)
    return subprocess.run(["target/bench/probe"]).returncode == 0


def renamed(library, prefix, names, path):
    """The library's objects as one, in which these functions have a prefix."""
    subprocess.run(["ld", "-r", "--whole-archive", library, "-o", path], check=True)
    subprocess.run(["objcopy", *(word for name in names for word in ("--redefine-sym", f"{name}={prefix}_{name}")), path], check=True)


def with_words(library, other, side):
    """A file libcapi.a in which the library's functions take words: this one, or one that asks the library where nothing is hidden and the other one,
    which has them, where something is."""
    if takes_words(library):
        return library
    with open(library, "rb") as archive:
        if b"cuhnavel_compare_one_way" not in archive.read():
            sys.exit(f"{library} has no one-way form")
    folder = os.path.abspath(f"target/bench/former-{side}")
    shutil.rmtree(folder, ignore_errors=True)
    os.makedirs(folder)
    subprocess.run(["gcc", "-O2", "-Wall", "-Wextra", "-Werror", "-I", "include", "-c", "bench/former.c", "-o", f"{folder}/words.o"], check=True)
    renamed(library, "former", MOVED, f"{folder}/former.o")
    renamed(other, "other", functions(), f"{folder}/other.o")
    subprocess.run(["ar", "rcs", f"{folder}/libcapi.a", *(f"{folder}/{name}.o" for name in ("words", "former", "other"))], check=True)
    return f"{folder}/libcapi.a"


def both_with_words(first, second):
    """The two libraries so, if one of them takes words."""
    return with_words(first, second, 0), with_words(second, first, 1)
