"""The page's file: written beside its place and then renamed, so that there is never half a page."""
import os
import stat

from files import shown, why
from names import names_beside
from refusals import Trouble

UNFINISHED = set()  # files that are being written


def check_target(path, books):
    """Trouble if a page cannot go there: no directory and no device, and not in the place of a book or of its names."""
    try:
        place = os.path.realpath(path)
        reason = no_file(path, place) or next((what for other, what in kept(books) if same(place, other)), None)
    except (OSError, ValueError) as fault:
        reason = why(fault)
    if reason:
        raise cannot(path, reason)


def no_file(path, place):
    """Why an ordinary file cannot be there; None if it can."""
    if path.endswith("/") or os.path.isdir(place):
        return "it names a directory, and not a file"
    if not os.path.lexists(place):
        folder = os.path.dirname(place)
        return None if os.path.isdir(folder) else f"there is no directory {shown(os.path.dirname(path) or folder)}"
    return None if stat.S_ISREG(os.stat(path).st_mode) else "it is a device or a pipe, and not a file"


def kept(books):
    """The files that no page takes the place of, each with what it is; of the names also where they would be."""
    for book in books:
        yield book, "it is a book that is compared"
        yield names_beside(book), "the names of a book are read from there"


def same(place, other):
    """Is it one file, by this name or another?"""
    return os.path.realpath(other) == place or os.path.exists(place) and os.path.exists(other) and os.path.samefile(place, other)


def write_page(path, text):
    """Writes the file, all of it or not at all."""
    place = os.path.realpath(path)
    beside = os.path.join(os.path.dirname(place), f".cuhnavel-{os.urandom(8).hex()}")
    try:
        UNFINISHED.add(beside)
        try:
            with open(os.open(beside, os.O_WRONLY | os.O_CREAT | os.O_EXCL, 0o666), "wb") as file:
                file.write(text.encode("utf-8"))
            os.replace(beside, place)
        finally:
            clear()
    except OSError as fault:
        raise cannot(path, why(fault))


def clear():
    """Takes away what was left unfinished."""
    while UNFINISHED:
        try:
            os.unlink(UNFINISHED.pop())
        except OSError:
            pass


def cannot(path, reason):
    return Trouble(f"{shown(path)} cannot be written: {reason}")
