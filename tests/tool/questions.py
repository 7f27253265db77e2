"""Questions as the papers fix them: their text read back, their meaning by plain sets, silent and hidden cells as amended. Apart from the tool.

A question has a kind and what it is made of: true, nothing; not, one question; and, or, two; way, its steps; same and differ, the steps of two ways.
Steps are a tuple of pairs of a label and a question. Equal questions are one object, so that huge ones with shared parts stay small."""
KINDS = ("true", "not", "and", "or", "way", "same", "differ")


class Question:
    __slots__ = ("kind", "of", "length")

    def parts(self):
        if self.kind in ("way", "same", "differ"):
            return [test for steps in self.of for _, test in steps]
        return list(self.of)


MADE = {}


def question(kind, *of):
    if kind == "way" and of == ((),):
        kind, of = "true", ()
    made = MADE.get((kind, of))
    if made is None:
        made = MADE[kind, of] = Question()
        made.kind, made.of = kind, of
        made.length = length(made)
    return made


def length(p):
    """How many characters the text has."""
    sizes = [q.length for q in p.of] if p.kind in ("not", "and", "or") else [way_length(steps) for steps in p.of]
    return sum(sizes) + {"true": 3, "not": 3, "and": 3, "or": 3, "way": 2, "same": 3, "differ": 4}[p.kind]


def way_length(steps):
    return sum(3 + len(str(label)) + test.length for label, test in steps) or 1


TRUE = question("true")


class Unreadable(Exception):
    """Not a question's text, or not the words of one."""


class Reader:
    """Reads one question from a text in the notation of the papers."""

    def __init__(self, text):
        self.text, self.at = text, 0

    def take(self, mark):
        if not self.has(mark):
            raise Unreadable(f"{mark!r} expected at {self.at} of {self.text!r}")

    def has(self, mark):
        if self.text.startswith(mark, self.at):
            self.at += len(mark)
            return True
        return False

    def question(self):
        if self.has("!("):
            p = self.question()
            self.take(")")
            return question("not", p)
        if self.has("("):
            p = self.question()
            kind = "and" if self.has("&") else "or"
            if kind == "or":
                self.take("|")
            q = self.question()
            self.take(")")
            return question(kind, p, q)
        return self.ways()

    def ways(self):
        self.take("<")
        first = self.way()
        if self.has(">"):
            return question("way", first)
        kind = "differ" if self.has("!=") else "same"
        if kind == "same":
            self.take("=")
        second = self.way()
        self.take(">")
        return question(kind, first, second)

    def way(self):
        if self.has("."):
            return ()
        steps = []
        while self.has("/"):
            start = self.at
            while self.text[self.at:self.at + 1].isdigit():
                self.at += 1
            label = self.text[start:self.at]
            if not label or label != str(int(label)) or int(label) > 65535:
                raise Unreadable(f"no label at {start} of {self.text!r}")
            self.take("[")
            steps.append((int(label), self.question()))
            self.take("]")
        if not steps:
            raise Unreadable(f"no way at {self.at} of {self.text!r}")
        return tuple(steps)


def read(text):
    reader = Reader(text)
    p = reader.question()
    if reader.at != len(text):
        raise Unreadable(f"{text[reader.at:]!r} is left over")
    return p


def write(p):
    way = lambda steps: "".join(f"/{label}[{write(test)}]" for label, test in steps) or "."
    if p.kind == "true":
        return "<.>"
    if p.kind == "not":
        return f"!({write(p.of[0])})"
    if p.kind in ("and", "or"):
        return f"({write(p.of[0])}{'&' if p.kind == 'and' else '|'}{write(p.of[1])})"
    return "<" + {"way": "", "same": "=", "differ": "!="}[p.kind].join(map(way, p.of)) + ">"


class Meaning:
    """Where questions are true in a book, as sets of cells."""

    def __init__(self, book):
        self.book, self.known = book, {}

    def where(self, p):
        if p not in self.known:
            self.known[p] = self.work(p)
        return self.known[p]

    def work(self, p):
        cells = frozenset(self.book.cells)
        if p.kind == "true":
            return cells
        if p.kind == "not":
            return cells - self.where(p.of[0])
        if p.kind == "and":
            return self.where(p.of[0]) & self.where(p.of[1])
        if p.kind == "or":
            return self.where(p.of[0]) | self.where(p.of[1])
        if p.kind == "way":
            return frozenset(x for x in cells if self.ends(x, p.of[0]))
        wanted, (first, second) = p.kind == "same", p.of
        return frozenset(x for x in cells if any(self.book.sound(a, b) is wanted for a in self.ends(x, first) for b in self.ends(x, second)))

    def ends(self, x, steps):
        here = {x}
        for label, test in steps:
            here = {y for z in here for y in self.book.goes(z, label)} & self.where(test)
        return here


def every(p, test, seen=None):
    """Whether the test holds of the question and of all its parts."""
    seen = set() if seen is None else seen
    if p in seen:
        return True
    seen.add(p)
    return test(p) and all(every(q, test, seen) for q in p.parts())


def within(p, bound):
    """Whether the question keeps to the bound, and to the 60 steps of a sheet's way."""
    return every(p, lambda q: q.kind not in ("way", "same", "differ") or all(len(steps) <= (60 if q.kind == "way" else bound) for steps in q.of))


def without_not(p):
    return every(p, lambda q: q.kind != "not")


def sheet(questions, bound=4, version=2):
    """A sheet that has these questions, and the entry of each."""
    number, body = {}, []

    def put(p):
        if p in number:
            return
        for q in p.parts():
            put(q)
        if p.kind in ("true", "not", "and", "or"):
            rest = b"".join(number[q].to_bytes(2, "big") for q in p.of)
        else:
            steps = [label.to_bytes(version, "big") + number[test].to_bytes(2, "big") for way in p.of for label, test in way]
            rest = bytes(map(len, p.of)) + b"".join(steps)
        body.append(bytes([1 + len(rest), KINDS.index(p.kind)]) + rest)
        number[p] = len(body) - 1

    for p in [TRUE, *questions]:
        put(p)
    content = bytes([version, bound]) + len(body).to_bytes(2, "big") + b"".join(body)
    return (4 + len(content)).to_bytes(4, "big") + content, [number[p] for p in questions]


def random_question(rnd, nesting, labels, bound=2):
    """A random question with at most this much nesting."""
    if nesting <= 0 or rnd.random() < 0.1:
        return TRUE
    inner = lambda: random_question(rnd, nesting - 1, labels, bound)
    kind = rnd.choice(["way", "way", "same", "differ", "not"] + ["and", "or"] * (nesting > 1))
    if kind in ("not", "and", "or"):
        return question(kind, *(inner() for _ in range(1 if kind == "not" else 2)))
    way = lambda least, most: tuple((rnd.choice(labels), inner() if rnd.random() < 0.4 else TRUE) for _ in range(rnd.randint(least, most)))
    return question("way", way(1, 3)) if kind == "way" else question(kind, way(0, bound), way(0, bound))
