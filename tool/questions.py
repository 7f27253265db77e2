"""Questions: read from a sheet, written to one, their depth, their length and text, and where they are true.

A question is a number into NODES; equal questions have one number. Kinds are those of a sheet: (TRUE,), (NOT, p), (AND, p, q), (OR, p, q),
(WAY, steps), (SAME, steps, steps), (DIFFER, steps, steps). Steps are pairs of a label and a question, the test there.

Texts are the library's. `holds` is an own meaning of questions; it serves to find shorter questions and ways to practise, which are checked
or marked as a help, and no answer is shown that rests on it.
"""
from functools import lru_cache

import library
from books import DIFFER, SAME, bits

TRUE, NOT, AND, OR, WAY = range(5)
NODES, INDEX, DEPTH, LENGTH = [], {}, [], []
LONGEST_WAY = 60
LONGEST_SHOWN = 20000  # texts that the library is asked for


def node(*key):
    """The number of the question with this kind and these parts."""
    at = INDEX.get(key)
    if at is None:
        at = INDEX[key] = len(NODES)
        NODES.append(key)
        DEPTH.append(depth_of(key))
        LENGTH.append(length_of(key))
    return at


def depth_of(key):
    """Its depth, as the papers count."""
    kind = key[0]
    if kind in (TRUE, NOT, AND, OR):
        return max((DEPTH[p] for p in key[1:]), default=0)
    if kind == WAY:
        depth = 0
        for _, test in reversed(key[1]):
            depth = 1 + max(DEPTH[test], depth)
        return depth
    return 1 + max((DEPTH[test] for _, test in key[1] + key[2]), default=0)


def length_of(key):
    """The length of its text, without writing it: any number, also where the library's 32 bits end."""
    kind = key[0]
    if kind == TRUE:
        return 3
    if kind in (NOT, AND, OR):
        return 3 + sum(LENGTH[p] for p in key[1:])
    ways = sum(sum(3 + len(str(label)) + LENGTH[test] for label, test in steps) or 1 for steps in key[1:])
    return ways + {WAY: 2, SAME: 3, DIFFER: 4}[kind]


ALWAYS = node(TRUE)
HEARD = node(SAME, (), ())  # same: stay, stay; true where a sound is heard


def parts_of(p):
    """The questions that it is made of."""
    key = NODES[p]
    if key[0] in (TRUE, NOT, AND, OR):
        return key[1:]
    return tuple(test for steps in key[1:] for _, test in steps)


def in_order(p, known):
    """The question and what it is made of, each after its parts, but for what is known already. It is known when it was given."""
    todo = [p]
    while todo:
        x = todo[-1]
        missing = [] if x in known else [part for part in parts_of(x) if part not in known]
        if missing:
            todo += missing
            continue
        todo.pop()
        if x not in known:
            yield x


def has_not(p):
    """Is there a "not" in it?"""
    seen = set()
    for x in in_order(p, seen):
        if NODES[x][0] == NOT:
            return True
        seen.add(x)
    return False


def flat(p, kind):
    """The parts of an and (an or), through all ands (ors) below, each once."""
    out, stack = {}, [p]
    while stack:
        x = stack.pop()
        if NODES[x][0] == kind:
            stack += [NODES[x][2], NODES[x][1]]
        else:
            out.setdefault(x)
    return list(out)


def both(p, q):
    """p and q."""
    return q if p == ALWAYS or p == q else p if q == ALWAYS else node(AND, p, q)


# Sheets

def read_sheet(sheet):
    """The questions of a sheet's entries."""
    width, at, out = sheet[4], 8, []
    for _ in range(int.from_bytes(sheet[6:8], "big")):
        size = sheet[at]
        out.append(read_entry(sheet[at + 1:at + 1 + size], width, out))
        at += 1 + size
    return out


def read_entry(body, width, before):
    """The question of an entry; `before` has those of the entries before it. A label has `width` bytes."""
    kind, step = body[0], width + 2
    named = lambda k: before[int.from_bytes(body[k:k + 2], "big")]
    steps = lambda first, count: tuple(
        (int.from_bytes(body[k:k + width], "big"), named(k + width)) for k in range(first, first + step * count, step))
    if kind == TRUE:
        return ALWAYS
    if kind == NOT:
        return node(NOT, named(1))
    if kind in (AND, OR):
        return node(kind, named(1), named(3))
    if kind == WAY:
        return node(WAY, steps(2, body[1])) if body[1] else ALWAYS
    return node(kind, steps(3, body[1]), steps(3 + step * body[1], body[2]))


class Sheet:
    """A sheet in the making: `entry` has the number of each question that is in it."""

    def __init__(self, bound, version):
        self.bound, self.version = bound, version
        self.entry, self.body = {ALWAYS: 0}, [bytes([1, TRUE])]

    def add(self, p):
        """Puts a question in, with its parts; False, and all as it was, if a sheet cannot hold so many."""
        before = len(self.body)
        for x in in_order(p, self.entry):
            if len(self.body) == library.MOST_ENTRIES:
                self.entry = {q: k for q, k in self.entry.items() if k < before}
                del self.body[before:]
                return False
            content = self.content(x)
            self.entry[x] = len(self.body)
            self.body.append(bytes([len(content)]) + content)
        return True

    def content(self, p):
        key, kind = NODES[p], NODES[p][0]
        if kind in (NOT, AND, OR):
            return bytes([kind]) + b"".join(self.entry[part].to_bytes(2, "big") for part in key[1:])
        counts = bytes(len(steps) for steps in key[1:])
        return bytes([kind]) + counts + b"".join(
            label.to_bytes(self.version, "big") + self.entry[test].to_bytes(2, "big") for steps in key[1:] for label, test in steps)

    def bytes(self):
        content = b"".join(self.body)
        return (8 + len(content)).to_bytes(4, "big") + bytes([self.version, self.bound]) + len(self.body).to_bytes(2, "big") + content


def sheets_of(questions, bound, version):
    """Sheets that hold these questions, as few as it takes in this order; a question that no sheet can hold is left out."""
    sheet = Sheet(bound, version)
    for p in questions:
        if not sheet.add(p):
            yield sheet
            sheet = Sheet(bound, version)
            sheet.add(p)
    yield sheet


@lru_cache(None)
def text_of(p, bound, version):
    """The question's text, by the library; None if it is longer than is shown."""
    sheet = Sheet(bound, version)
    if LENGTH[p] > LONGEST_SHOWN or not sheet.add(p):
        return None
    return library.question_text(sheet.bytes(), sheet.entry[p])


# Own meaning, for help only

def ends(book, i, steps):
    """The ends of the ways from cell i, as a set."""
    cells = 1 << i
    for label, test in steps:
        cells = book.image(cells, label) & holds(book, test)
    return cells


def compares(book, kind, first, second):
    """Is there an end in the first set and one in the second that sound the same (different)?"""
    row = book.compared[kind]
    return any(second & row[y] for y in bits(first))


def holds(book, p):
    """The cells where the question is true, as a set."""
    known = book.truth.get(p)
    if known is not None:
        return known
    for x in in_order(p, book.truth):
        book.truth[x] = meaning(book, NODES[x])
    return book.truth[p]


def meaning(book, key):
    """Where a question is true whose parts' truth is known."""
    kind = key[0]
    if kind == TRUE:
        return book.all
    if kind == NOT:
        return book.all & ~book.truth[key[1]]
    if kind == AND:
        return book.truth[key[1]] & book.truth[key[2]]
    if kind == OR:
        return book.truth[key[1]] | book.truth[key[2]]
    if kind == WAY:
        cells = book.all
        for label, test in reversed(key[1]):
            cells = book.preimage(cells & book.truth[test], label)
        return cells
    return sum(1 << i for i in range(book.n) if compares(book, kind, ends(book, i, key[1]), ends(book, i, key[2])))


def path_through(book, i, steps, goal=None):
    """The cells of one way from cell i that passes the tests (and ends in the goal, a set); there is one."""
    sets = [book.all if goal is None else goal]
    for label, test in reversed(steps):
        sets.append(book.preimage(sets[-1] & holds(book, test), label))
    sets.reverse()
    out = []
    for k, (label, test) in enumerate(steps):
        i = next(bits(book.to(i, label) & holds(book, test) & sets[k + 1]))
        out.append(i)
    return out


def two_paths(book, i, kind, first, second):
    """Two ways from cell i whose ends sound the same (different), of which there are some; the ends are the lowest."""
    later = ends(book, i, second)
    for y in bits(ends(book, i, first)):
        matching = later & book.compared[kind][y]
        if matching:
            return path_through(book, i, first, 1 << y), path_through(book, i, second, matching & -matching)
    raise ValueError("there are no two such ways")
