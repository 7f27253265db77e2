"""Tries the command and what it shows. With names of groups, only those."""
import sys
import tempfile
from pathlib import Path

sys.dont_write_bytecode = True
sys.setrecursionlimit(20000)
import asking
from alike import SameBytes, Secrecy
from arguments import Arguments
from bad_files import BadFiles
from building import Building
from calls import Worker
from good_files import GoodFiles
from mistakes import Mistakes
from name_files import NameFiles
from page_files import PageFiles
from shown import Comparisons
from times import Times
from worded import Worded


def groups(worker):
    """What is tried, by name; each gets a folder, and says whether all was well."""
    return {
        "building": lambda folder: Building(folder).everything(),
        "statuses": lambda folder: asking.everything(folder, [GoodFiles, BadFiles, Arguments, NameFiles, PageFiles]),
        "words": lambda folder: Worded(worker, 6000).everything(),
        "shown": lambda folder: Comparisons(worker, folder, 300).everything(),
        "mistakes": lambda folder: Mistakes(worker, folder, {1: 40, 2: 44, 3: 47}).everything(),
        "alike": lambda folder: SameBytes(folder, 12).everything(),
        "times": lambda folder: Times(folder).everything(),
        "secrecy": lambda folder: Secrecy(worker, folder, 120).everything(),
    }


def main(wanted):
    good = True
    with tempfile.TemporaryDirectory(prefix="cuhnavel-tool-") as temporary:
        worker = Worker()
        try:
            for name, tried in groups(worker).items():
                if not wanted or name in wanted:
                    folder = Path(temporary) / name
                    folder.mkdir()
                    good &= tried(folder)
        finally:
            worker.close()
    print("tool: all is well" if good else "tool: FAILED")
    return 0 if good else 1


if __name__ == "__main__":
    sys.exit(main(sys.argv[1:]))
