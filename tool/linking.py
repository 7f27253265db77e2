"""The library as a shared object: proved and built where it is missing or older than what it is made of."""
import fcntl
import os
import shutil
import subprocess
import sys

from files import why
from refusals import Trouble

ROOT = os.path.dirname(os.path.dirname(os.path.abspath(__file__)))
ARCHIVE = os.path.join(ROOT, "target", "staticlib", "libcapi.a")
CAPI = os.path.join(ROOT, "crates", "capi")
FOLDER = os.path.join(ROOT, "target", "tool")
SHARED = os.path.join(FOLDER, "libcuhnavel.so")


def shared_object():
    """The path of the shared object, which is there and fresh. The environment may name another."""
    named = os.environ.get("CUHNAVEL_LIBRARY")
    if named:
        return named
    if not fresh():
        build()
    return SHARED


def fresh():
    """Is the shared object as new as the archive, and the archive as new as its sources?"""
    return newer(SHARED, [ARCHIVE]) and archive_fresh()


def archive_fresh():
    if os.environ.get("LIBRARY_BUILT") == "yes" and os.path.exists(ARCHIVE):
        return True
    return newer(ARCHIVE, sources())


def newer(path, others):
    """Is there such a file, and none of the others newer?"""
    try:
        made = os.stat(path).st_mtime_ns
        return all(os.stat(other).st_mtime_ns <= made for other in others)
    except OSError:
        return False


def sources():
    """What the library is made of: all below crates/ but what rt makes there."""
    yield os.path.join(ROOT, "crates.txt")
    for folder, folders, files in os.walk(os.path.join(ROOT, "crates")):
        if "out" in folders:
            folders.remove("out")
        else:
            yield folder  # rt's `out` changes the folder that it is made in
        for file in files:
            yield os.path.join(folder, file)


def build():
    """Builds what is not fresh. Of several at a time one builds, and the others wait."""
    try:
        os.makedirs(FOLDER, exist_ok=True)
        with open(os.path.join(FOLDER, "lock"), "w") as lock:
            fcntl.flock(lock, fcntl.LOCK_EX)
            if not archive_fresh():
                build_archive()
            if not newer(SHARED, [ARCHIVE]):
                link()
    except OSError as fault:
        raise Trouble(f"the library cannot be built below {FOLDER}: {why(fault)}")


def build_archive():
    say("proving and building the library first; on two cores this may take ten minutes")
    made = os.path.join(CAPI, "out", "libcapi.a")
    run(["rt", "lib"], "the library could not be proved and built", "the Rattle kit (rt)", CAPI)
    if not os.path.exists(made):
        raise Trouble("the library could not be built: rt lib wrote no crates/capi/out/libcapi.a")
    os.makedirs(os.path.dirname(ARCHIVE), exist_ok=True)
    shutil.copy(made, ARCHIVE)


def link():
    say("linking the library")
    beside = f"{SHARED}.{os.getpid()}"
    try:
        run(["gcc", "-shared", "-o", beside, "-Wl,--whole-archive", ARCHIVE, "-Wl,--no-whole-archive"], "the library could not be linked", "gcc")
        os.replace(beside, SHARED)
    finally:
        if os.path.exists(beside):
            os.unlink(beside)


def run(command, failed, needed, where=ROOT):
    """Runs a program quietly; what it said is said if it fails."""
    if not shutil.which(command[0]):
        raise Trouble(f"{failed}: {needed} is needed and is not installed")
    done = subprocess.run(command, cwd=where, stdin=subprocess.DEVNULL, stdout=subprocess.PIPE, stderr=subprocess.STDOUT)
    if done.returncode:
        last = done.stdout.decode("utf-8", "replace").strip().splitlines()[-5:]
        raise Trouble("\n".join([f"{failed}:", *last]))


def say(text):
    if sys.stderr:
        print(f"cuhnavel: {text}", file=sys.stderr, flush=True)
