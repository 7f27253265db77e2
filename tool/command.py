"""The command: arguments, statuses, and what is said when there is no answer.

compare, page: status 0 for yes, 1 for no, 2 if not answered. check, show: 0 a book, 1 refused, 2 unreadable or misused.
"""
import os
import re
import signal
import sys
import threading

try:
    import output
    from books import NEW, OLD, SIDE, read_book
    from compared import Comparison
    from files import shown, why
    from page import Page
    from refusals import REFUSALS, Refused, Trouble
    from report import Report, book_text
    from words import counted
except ImportError as fault:  # a Python without ctypes, say
    sys.stderr.write(f"cuhnavel: a part of Python or of the program is missing: {fault}\n")
    sys.exit(2)

USAGE = """\
May a new book take the place of an old one?

  cuhnavel compare OLD NEW         the answer in words
      --bound N                    how strict, 0 to 4; 4 if not given
      --one-way                    the new book may offer more (covered instead of matched)
      --hide-old 3,5-7             private cells of the old book, of which nothing is shown
      --hide-new 3,5-7             private cells of the new book
      --partners                   also which cells are partners
      --brief                      the first line only
      --no-names                   numbers instead of names
  cuhnavel page OLD NEW -o FILE    the answer as a page for a browser, and to print
      (with --bound, --one-way, --hide-old, --hide-new, --no-names; --no-graphviz draws without Graphviz)
  cuhnavel check BOOK              is this file a book?
  cuhnavel show BOOK               a book in words (--hide 3,5-7, --no-names)
  cuhnavel explain [NUMBER]        what a refusal means

Names are read from X.names beside X.book: lines such as `cell 6 tea` and `label 1 look up`.
Status of compare and page: 0 yes, 1 no, 2 not answered. Of check and show: 0 a book, 1 refused, 2 unreadable.
"""

FLAGS = {
    "compare": ["--one-way", "--partners", "--brief", "--no-names"],
    "page": ["--one-way", "--no-names", "--no-graphviz"],
    "check": [],
    "show": ["--no-names"],
    "explain": [],
}
VALUES = {
    "compare": ["--bound", "--hide-old", "--hide-new"],
    "page": ["--bound", "--hide-old", "--hide-new", "-o"],
    "show": ["--hide"],
}
SAYING = []  # something, once the answer is being written
ENDED = []  # the status, once all is said
WORK = []  # the thread that does what is asked
PATIENCE = 1  # the seconds that an answer has to be written to its end when the program is stopped
STACKS = (512 << 20, 64 << 20, 8 << 20)
DEEPEST = 200000


# Arguments

class Given:
    """The arguments of a command: `files`, and the options by name."""

    def __init__(self, command, arguments):
        self.files, self.options = [], {}
        rest = list(arguments)
        while rest:
            self.take(command, rest.pop(0), rest)

    def take(self, command, argument, rest):
        name, equals, value = argument.partition("=")
        if argument == "--":
            self.files += rest
            rest.clear()
        elif not argument.startswith("-") or argument == "-":
            self.files.append(argument)
        elif argument in FLAGS[command]:
            self.put(argument, True)
        elif name in VALUES.get(command, []):
            if not equals and not rest:
                raise Trouble(f"{name} needs a value")
            self.put(name, value if equals else rest.pop(0))
        else:
            raise Trouble(f"{command} has no option {argument!r} (cuhnavel help lists them)")

    def put(self, name, value):
        if name in self.options:
            raise Trouble(f"{name} is given twice")
        self.options[name] = value

    def __contains__(self, name):
        return name in self.options

    def hidden(self, name):
        """3,5-7 as a list of cells."""
        text, out = self.options.get(name), []
        for part in text.split(",") if text is not None else []:
            found = re.fullmatch(r"([0-9]{1,9})(?:-([0-9]{1,9}))?", part.strip())
            if not found or found[2] and int(found[2]) < int(found[1]):
                raise Trouble(f"{name}: {text!r} is not a list of cells; write for example 3,5-7")
            first, last = int(found[1]), int(found[2] or found[1])
            out += range(first, min(last, first + 64) + 1)
        return out

    def bound(self):
        text = self.options.get("--bound", "4")
        if not re.fullmatch("[0-9]{1,9}", text):
            raise Trouble(f"the bound is a number from 0 to 4, and not {text!r}")
        if int(text) > 4:
            raise Refused(20, words=f"the bound is {int(text)}, and it is at most 4 (refusal 20)")
        return int(text)


def compared(given):
    """The two books, compared as asked."""
    if len(given.files) != 2:
        raise Trouble(f"two books are needed, the old one and the new one; {len(given.files)} given (cuhnavel help says more)")
    bound, hidden = given.bound(), [given.hidden(f"--hide-{side}") for side in SIDE]
    books = [read_book(given.files[side], side, hidden[side], "--no-names" not in given) for side in (OLD, NEW)]
    return Comparison(*books, bound, "--one-way" in given)


def one_book(given):
    if len(given.files) != 1:
        raise Trouble(f"one book is needed; {len(given.files)} given (cuhnavel help says more)")
    return given.files[0]


# Commands: each says what it has to say and gives its status

def compare(given):
    comparison = compared(given)
    report = Report(comparison)
    write(report.verdict() + "\n" if "--brief" in given else report.report("--partners" in given))
    return int(bool(comparison.alone[OLD]))


def page(given):
    path = given.options.get("-o")
    if not path:
        raise Trouble("say with -o FILE where the page goes")
    output.check_target(path, given.files)
    comparison = compared(given)
    made = Page(comparison, "--no-graphviz" not in given)
    output.write_page(path, made.text())
    write(f"{made.report.verdict()} See {shown(path)}.\n")
    return int(bool(comparison.alone[OLD]))


def check(given):
    path = one_book(given)
    book = read_book(path, named=False)
    write(f"{shown(path)} is a book: {counted(book.n, 'cell')}, {counted(len(book.links), 'link')}, version {book.version}.\n")
    return 0


def show(given):
    write(book_text(read_book(one_book(given), hidden=given.hidden("--hide"), named="--no-names" not in given)))
    return 0


def explain(given):
    wanted = given.files or [str(number) for number in REFUSALS]
    for number in wanted:
        if not re.fullmatch("[0-9]{1,9}", number) or int(number) not in REFUSALS:
            raise Trouble(f"there is no refusal {number!r}; cuhnavel explain lists them")
    write("".join(f"{int(number):2}  {REFUSALS[int(number)]}\n" for number in wanted))
    return 0


COMMANDS = {"compare": compare, "page": page, "check": check, "show": show, "explain": explain}


# Saying things

def write(text):
    """Writes the answer; Trouble if that cannot be."""
    SAYING.append(True)
    try:
        if sys.stdout is None:
            raise OSError("standard output is closed")
        sys.stdout.write(text)
        sys.stdout.flush()
    except (OSError, ValueError) as fault:
        sys.stdout = None  # what is left goes nowhere
        raise Trouble(f"the answer could not be written: {why(fault)}")


def complain(text):
    """Says something on standard error, if there is one."""
    try:
        if sys.stderr is not None:
            sys.stderr.write(f"cuhnavel: {text}\n")
            sys.stderr.flush()
    except (OSError, ValueError):
        sys.stderr = None


def status_of(arguments):
    """Does what is asked, and gives the status."""
    command, rest = (arguments[0], arguments[1:]) if arguments else (None, [])
    if command in (None, "help", "--help", "-h") or set(rest) & {"--help", "-h"}:
        write(USAGE)
        return 2 if command is None else 0
    if command not in COMMANDS:
        raise Trouble(f"there is no command {command!r} (cuhnavel help lists them)")
    try:
        return COMMANDS[command](Given(command, rest))
    except Refused as fault:
        if command not in ("check", "show") or fault.number == 31:
            raise
        complain(fault)
        return 1


def guarded(arguments):
    """The status, whatever happens."""
    try:
        ENDED.append(status_of(arguments))
        return ENDED[-1]
    except Trouble as fault:
        complain(fault)
    except MemoryError:
        complain("there is not enough memory")
    except (RecursionError, Exception) as fault:
        complain(f"something unexpected happened, and there is no answer; this is a fault of the program ({type(fault).__name__}: {fault})")
    return 2


def main():
    """Runs in a thread with a deep stack, where there can be one: questions may be nested 4,096 deep."""
    for stream in (sys.stdout, sys.stderr):
        if stream is not None:
            stream.reconfigure(encoding="utf-8", errors="replace")
    status = []
    sys.setrecursionlimit(DEEPEST)
    for size in STACKS:
        try:
            threading.stack_size(size)
            work = threading.Thread(target=lambda: status.append(guarded(sys.argv[1:])), daemon=True)
            work.start()
            WORK.append(work)
            break
        except (ValueError, RuntimeError):
            continue
    else:
        return guarded(sys.argv[1:])
    work.join()
    return status[0] if status else 2


def stopped(*_):
    """Ends at once, and leaves no half-written file. An answer that is being written is written to its end first, and its status given."""
    if SAYING:
        for work in WORK:
            work.join(PATIENCE)
    if ENDED:
        os._exit(ENDED[-1])
    output.clear()
    complain("stopped; there is no answer")
    os._exit(2)


if __name__ == "__main__":
    for number in (signal.SIGINT, signal.SIGTERM, signal.SIGHUP):
        signal.signal(number, stopped)
    os._exit(main())  # all is written; nothing is left to be done
