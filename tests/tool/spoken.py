"""Questions in plain words, read back: all questions that the words can mean. Apart from the tool, by the table of words alone.

Each reader takes a place in the text and gives what can be read from there, each with the place after it."""
from questions import TRUE, Unreadable, question

SOUNDS = {"the same": "same", "different": "differ"}
HEARD = question("same", (), ())  # recording 0 is silent, and sounds like nothing, not even like itself
MARKS = "abcdefgh"
CUT = ("a further question", "things more are so")


class Spoken:
    def __init__(self, text, labels):
        """labels: by the words that stand for them."""
        self.text, self.labels = text, sorted(labels.items(), key=lambda item: -len(item[0]))
        self.known = {}

    def at(self, place, words):
        """The place after these words, if they stand there, as a list of at most one."""
        return [place + len(words)] if self.text.startswith(words, place) else []

    def label(self, place):
        return [(label, after) for words, label in self.labels for after in self.at(place, words)]

    def times(self, place):
        """How often a label is taken."""
        yield 1, place
        for after in self.at(place, " twice"):
            yield 2, after
        end = place + 1
        while self.text[end:end + 1].isdigit():
            end += 1
        for after in self.at(end, " times"):
            if self.text[place:place + 1] == " " and end > place + 1:
                yield int(self.text[place + 1:end]), after

    def way(self, place, deep=False):
        """Steps, each label once or several times, with a test in brackets, joined by then. deep: within a list."""
        key = ("way", place, deep)
        if key not in self.known:
            self.known[key] = list(self.ways(place, deep))
        return self.known[key]

    def ways(self, place, deep):
        for label, after_label in self.label(place):
            for count, after in self.times(after_label):
                for test, end in [(TRUE, after)] + self.tested(after):
                    steps = ((label, TRUE),) * (count - 1) + ((label, test),)
                    yield steps, end
                    for more in self.at(end, " then "):
                        for rest, last in self.way(more, deep):
                            yield steps + rest, last

    def tested(self, place):
        return [(test, end) for inner in self.at(place, " (to a cell where ") for test, close in self.clause(inner) for end in self.at(close, ")")]

    def clause(self, place, deep=False):
        key = ("clause", place, deep)
        if key not in self.known:
            self.known[key] = [*self.plain(place), *self.led(place, deep), *self.heard(place, deep), *self.listed(place, deep)]
        return self.known[key]

    def plain(self, place):
        for words, p in ("anything is so", TRUE), ("nothing is so", question("not", TRUE)), ("a sound is heard", HEARD), \
                ("no sound is heard", question("not", HEARD)):
            for after in self.at(place, words):
                yield p, after

    def led(self, place, deep):
        """Where a way leads."""
        for label, after in self.label(place):
            for inner in self.at(after, " leads only to cells where "):
                for test, end in self.clause(inner, deep):
                    yield question("not", question("way", ((label, question("not", test)),))), end
        for steps, after in self.way(place, deep):
            for end in self.at(after, " leads somewhere"):
                yield question("way", steps), end
            for end in self.at(after, " leads nowhere"):
                yield question("not", question("way", steps)), end
            for words, wrap in (" can lead to a cell where ", False), (" leads to no cell where ", True):
                for inner in self.at(after, words):
                    for test, end in self.clause(inner, deep):
                        p = question("way", self.ending(steps, test))
                        yield question("not", p) if wrap else p, end

    def ending(self, steps, test):
        label, before = steps[-1]
        return steps[:-1] + ((label, test if before is TRUE else question("and", before, test)),)

    def heard(self, place, deep):
        """What can sound alike, and what never does."""
        for who in "this cell", "that cell":
            for after in self.at(place, who):
                yield from self.compared((), (), after, {" like itself": "same", " different from itself": "differ"})
        for first, after in self.way(place, deep):
            here = {f" {how} {who}": kind for how, kind in (("like", "same"), ("different from", "differ")) for who in ("that cell", "this cell")}
            yield from self.compared(first, (), after, here)
            for more in self.at(after, ", gone two times,"):
                yield from self.compared(first, first, more, {f" {how}": kind for how, kind in SOUNDS.items()})
            for more in self.at(after, ", and "):
                for second, last in self.way(more, deep):
                    for end in self.at(last, ","):
                        yield from self.compared(first, second, end, {f" {how}": kind for how, kind in SOUNDS.items()})

    def compared(self, first, second, place, how):
        for words, yes in (" can sound", True), (" never sounds", False), (" never sound", False):
            for after in self.at(place, words):
                for ending, kind in how.items():
                    for end in self.at(after, ending):
                        p = question(kind, first, second)
                        yield p if yes else question("not", p), end

    def listed(self, place, deep):
        """(a) .., and (b) .., and (c) ..; between square brackets within another list."""
        for start in self.at(place, "[(a) " if deep else "(a) "):
            for first, after in self.clause(start, True):
                for joiner in "and", "or":
                    for p, last in self.items(first, after, joiner, MARKS[1:]):
                        for end in self.at(last, "]" if deep else ""):
                            yield p, end

    def items(self, before, place, joiner, marks):
        for inner in self.at(place, f", {joiner} ({marks[0]}) ") if marks else []:
            for p, after in self.clause(inner, True):
                joined = question(joiner, before, p)
                yield joined, after
                yield from self.items(joined, after, joiner, marks[1:])

    # At the front

    def asked(self):
        """All that the whole text can mean as a question to be answered with yes or no."""
        found = {p for reader in (self.leads, self.listening, self.so) for p, end in reader() if self.text[end:] == "?"}
        if not found:
            raise Unreadable(f"not the words of a question: {self.text!r}")
        return found

    def leads(self):
        for inner in self.at(0, "Does "):
            for steps, after in self.way(inner):
                for end in self.at(after, " lead anywhere"):
                    yield question("way", steps), end
        for inner in self.at(0, "Can "):
            for steps, after in self.way(inner):
                for more in self.at(after, " lead to a cell where "):
                    for test, end in self.clause(more):
                        yield question("way", self.ending(steps, test)), end

    def so(self):
        for inner in self.at(0, "Is it so that "):
            yield from self.clause(inner)
        for end in self.at(0, "Is a sound heard here"):
            yield HEARD, end

    def sounding(self, first, second, place, before=None):
        for after in self.at(place, " Can the two sound "):
            for words, kind in SOUNDS.items():
                for end in self.at(after, words):
                    p = question(kind, first, second)
                    yield p if before is None else question("way", self.ending(before, p)), end

    def then(self, place, words):
        """These words, a way, and what is done at its end: the way and the place after."""
        return [(steps, end) for inner in self.at(place, words) for steps, after in self.way(inner) for end in self.at(after, ", and listen.")]

    def listening(self):
        for first in self.at(0, "Listen here."):
            for steps, after in self.then(first, " Then go "):
                yield from self.sounding((), steps, after)
        for steps, after in self.then(0, "Go "):
            for second, end in self.then(after, " Then from here go "):
                yield from self.sounding(steps, second, end)
            for second, end in self.then(after, " Go on "):
                yield from self.sounding((), second, end, steps)
        for inner in self.at(0, "Go "):
            for steps, after in self.way(inner):
                for end in self.at(after, ", and listen; and once more from here."):
                    yield from self.sounding(steps, steps, end)
                for more in self.at(after, "."):
                    for first, middle in self.then(more, " From there go "):
                        for second, end in self.then(middle, " Again from there go "):
                            yield from self.sounding(first, second, end, steps)
