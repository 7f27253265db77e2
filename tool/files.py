"""Files as people name them: what a file is called in words, why something cannot be done with it, and its bytes."""
import os
import stat

from refusals import Trouble


def shown(path):
    """A file's name as it can be written anywhere: damaged and control characters become question marks."""
    text = os.fsencode(path).decode("utf-8", "replace").replace("\ufffd", "?")
    return "".join(c if c.isprintable() else "?" for c in text) or "''"


def why(fault):
    """What the system says of a fault, in words."""
    return (getattr(fault, "strerror", None) or str(fault)).lower()


def read_file(path, most):
    """The bytes of an ordinary file, up to one more than `most`. Nothing is waited for: no pipe and no device is read."""
    try:
        with open(os.open(path, os.O_RDONLY | os.O_NONBLOCK), "rb") as file:
            if not stat.S_ISREG(os.fstat(file.fileno()).st_mode):
                raise Trouble(f"{shown(path)} cannot be read: it is a device or a pipe, and not a file")
            return file.read(most + 1)
    except IsADirectoryError:
        raise Trouble(f"{shown(path)} cannot be read: it is a directory, and not a file")
    except (OSError, ValueError) as fault:
        raise Trouble(f"{shown(path)} cannot be read: {why(fault)}")
