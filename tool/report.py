"""What `compare` and `show` print; also the page's words where no script runs."""
import re

from books import NEW, OLD, SIDE
from forms import form_of
from questions import LENGTH, text_of
from words import counted, flatten, large, plain

LONGEST_NOTATION = 300
MOST_PLACES = 6
MOST_LEVELS = 6


class Report:
    """A comparison as text."""

    def __init__(self, comparison):
        self.c = comparison
        self.form = form_of(comparison.one_way)

    # Pieces

    def number(self, side, i):
        return str(self.c.books[side].number[i])

    def cell(self, side, i):
        book = self.c.books[side]
        return self.number(side, i) + (f" “{book.names[i]}”" if i in book.names else "")

    def sound(self, side, i):
        book = self.c.books[side]
        return "silent" if book.silent(i) else f"recording {book.recordings[i]}"

    def label(self, k):
        return plain(self.c.speaker.label(k))

    def verdict(self):
        return self.form.verdict(len(self.c.alone[OLD]), self.c.n)

    def notation(self, p, limit):
        """The question's text by the library, cut at the limit; the number of characters if it is cut."""
        text = text_of(p, self.c.bound, self.c.version)
        if text is not None and len(text) <= limit:
            return text, ""
        return (text or "")[:limit] + "…", f"{large(LENGTH[p])} characters in full"

    # What differs at a place

    def place_title(self, place):
        """What differs, in a sentence; cells stand between \\3 and \\4 as side and number, labels between \\1 and \\2."""
        story, way, _ = self.c.practice.last(place["story"])
        if story["kind"] == "heard":
            lead = story["lead"]
            return f"{mark(lead, story['x'], True)} has a sound. {mark(1 - lead, story['y'], True)} is silent."
        if way is None:
            return self.missing_link(story)
        lead, other = story["lead"], 1 - story["lead"]
        ends = lambda told, start: [told[key][-1] if told[key] else start for key in ("wp", "vp")]
        leads = "same" if story["kind"] == "same" else "different"
        said = sorted([(lead, *ends(story, story["x"]), leads), (other, *ends(way, story["y"]), way["end"])])
        return " ".join(self.two_ends(*one) for one in said)

    def missing_link(self, story):
        lead, which, k = story["lead"], story.get("which", 0), len(story["stuck"])
        label, path = (story["w"], story.get("v"))[which][k], (story["wp"], story.get("vp"))[which]
        has = path[k - 1] if k else story["x"]
        lacks = story["stuck"][-1] if k else story["y"]
        link = f"{mark(lead, has, True)} has a link by {self.c.speaker.label(label)}, to {mark(lead, path[k])}."
        return f"{link} {mark(1 - lead, lacks, True)} has none."

    def two_ends(self, side, a, b, how):
        """How the ends of the two ways sound in one book."""
        book = self.c.books[side]
        if how == "silent":
            quiet = sorted({i for i in (a, b) if book.silent(i)})
            return " ".join(f"{mark(side, i, True)} is silent." for i in quiet)
        if a == b:
            return f"In the {SIDE[side]} book both ways end in one cell, {mark(side, a)}."
        return f"{SIDE[side].capitalize()} cells {mark(side, a)} and {mark(side, b)} sound {'the same' if how == 'same' else 'different'}."

    def title(self, place):
        return plain(re.sub("\3(.),(\\d+)\4", lambda f: self.cell(int(f[1]), int(f[2])), self.place_title(place)))

    # The ways to practise

    def walk(self, side, start, labels, cells):
        if not labels:
            return f"stay here: {self.cell(side, start)}"
        hops = [f"{self.label(k)} → {self.cell(side, c)}" for k, c in zip(labels, cells)]
        if len(hops) > 7:
            hops[4:-2] = [f"… {len(hops) - 6} links …"]
        return ", ".join(hops)

    def told(self, story, side, way=None):
        """What one book does in a story, as lines of a text and what stands right of it; way: that of the follower."""
        leads = side == story["lead"]
        start = story["x"] if leads else story["y"]
        if story["kind"] == "heard":
            return [("listen here", self.sound(side, start))]
        told = story if leads else way
        if told is None:
            return self.told_stuck(story, side, start)
        if "v" not in story:
            upto = told["at"][1] + 1 if "at" in told else None
            return [(self.walk(side, start, story["w"][:upto], told["wp"][:upto]), "")]
        lines = [(self.walk(side, start, labels, cells), self.sound(side, cells[-1] if cells else start))
                 for labels, cells in ((story["w"], told["wp"]), (story["v"], told["vp"]))]
        if "sub" in told:
            which, k = told["at"]
            below = ", see below" if told is story["ways"][0] else ""
            return lines + [("", f"but {self.cell(side, (told['wp'], told['vp'])[which][k])} is not alike{below}")]
        how = told["end"] if not leads else story["kind"]
        return lines + [("", {"same": "the same", "silent": "silent, so neither the same nor different"}.get(how, "different"))]

    def told_stuck(self, story, side, start):
        labels, k = story["v"] if story.get("which") else story["w"], len(story["stuck"])
        lines = [(self.walk(side, start, labels[:k], story["stuck"]), "")] if k else []
        return lines + [(f"{'there ' * (k > 0)}{self.label(labels[k])} leads nowhere", "")]

    def level(self, story, first):
        """One story as blocks: a heading, and lines."""
        blocks = []
        for side in (OLD, NEW):
            leads = side == story["lead"]
            start = story["x"] if leads else story["y"]
            for k, way in enumerate([None] if leads else story.get("ways", [None])):
                head = f"{'then ' * (not first)}from {SIDE[side]} {self.cell(side, start)}" if k == 0 else "or"
                blocks.append((head, self.told(story, side, way)))
            if not leads and story.get("more"):
                blocks.append((f"and {large(story['more'])} way{'s' * (story['more'] != 1)} more, none of which does", []))
        return blocks

    def story(self, number, indent="   "):
        """The ways to practise, in lines."""
        out = []
        for level in range(MOST_LEVELS):
            story = self.c.practice.stories[number]
            blocks = self.level(story, level == 0)
            width = max((len(a) for _, lines in blocks for a, b in lines if b), default=0)
            for head, lines in blocks:
                out.append(indent + head)
                out += [(indent + "  " + (f"{a:{width}}   {b}" if b else a)).rstrip() for a, b in lines]
            number = story["ways"][0].get("sub") if "ways" in story else None
            if number is None:
                return out
        return out + [indent + "and so on"]

    # The whole

    def report(self, partners=False):
        c = self.c
        out = [self.verdict(), ""]
        for side, book in enumerate(c.books):
            out.append(f"  {SIDE[side]}    {counted(book.n, 'cell')}, {counted(len(book.links), 'link')}   {book.file}")
        out.append(f"  bound  {c.bound}; {self.form.matched} {c.matched} of {c.n * c.m} pairs")
        if not c.alone[OLD]:
            out += ["", "Cells that do alike may still say other words: only listening can tell."]
        out += self.places()
        if c.alone[OLD]:
            out += self.alone()
        out += self.other_names()
        if partners:
            out += self.partners()
        return "\n".join(out) + "\n"

    def places(self):
        out = ["", "Look here first:"] if self.c.places else []
        for k, place in enumerate(self.c.places[:MOST_PLACES], 1):
            out += ["", f"{k}. {self.title(place)}", *self.story(place["story"]), *self.ask(*place["pair"])]
            out.append(f"   concerns  {counted(len(place['cells']), 'old cell')}: {' '.join(self.number(OLD, i) for i in place['cells'])}")
        if len(self.c.places) > MOST_PLACES:
            out += ["", f"and {counted(len(self.c.places) - MOST_PLACES, 'place')} more (cuhnavel page shows all)"]
        return out

    def ask(self, i, j):
        """The question of a pair, in words and in notation, with its answers."""
        p = self.c.short[i, j]
        old, new = self.c.shown_answers(i, j)
        text, length = self.notation(p, LONGEST_NOTATION)
        turned = f"yes at old {self.number(OLD, i)}, no at new {self.number(NEW, j)}" if old == "no" else ""  # the words leave out a "not"
        notes = "; ".join(filter(None, (length, turned)))
        return [f"   ask       {plain(flatten(self.c.speaker.question(p)))}?",
                f"             {old} at old {self.number(OLD, i)}, {new} at new {self.number(NEW, j)}",
                f"   notation  {text}" + (f"   ({notes})" if notes else "")]

    def alone(self):
        c = self.c
        rows = [(f"old {self.cell(OLD, i)}", f"new {self.cell(NEW, c.closest[i][0])}", f"place {c.place_of[i] + 1}",
                 "links alike, sounds not" if c.only_sounds(i, c.closest[i][0]) else "links not alike",
                 f"depth {c.depth(i, c.closest[i][0])}" + self.as_close(c.closest[i][1:])) for i in c.alone[OLD]]
        width = [max(map(len, column)) for column in zip(*rows)]
        return ["", f"Old cells {self.form.alone}, and the new cell that comes closest:",
                *("  " + "   ".join(f"{text:{w}}" for text, w in zip(row, width)).rstrip() for row in rows)]

    def as_close(self, others):
        return f"   (as close: {' '.join(self.number(NEW, j) for j in others[:3])}{' …' * (len(others) > 3)})" if others else ""

    def listed(self, old, new):
        return "  " + self.form.listed(*([self.cell(side, i) for i in cells] for side, cells in ((OLD, old), (NEW, new))))

    def other_names(self):
        """What is alike and is called otherwise: there it is most likely that another word is said."""
        found = [self.listed(*group) for group in self.c.groups() if self.c.names_differ(*group)]
        return ["", self.form.differ_head, *found] if found else []

    def partners(self):
        found = [self.listed(*group) for group in self.c.groups()]
        out = ["", self.form.partners_head, *found] if found else ["", self.form.nobody]
        if self.c.alone[NEW]:
            out.append(f"{self.form.alone_new}: {', '.join(self.cell(NEW, j) for j in self.c.alone[NEW])}")
        return out


def mark(side, i, begins=False):
    return (f"{SIDE[side].capitalize()} cell " if begins else "") + f"\3{side},{i}\4"


def book_text(book):
    """A book in words."""
    name = lambda i: f" “{book.names[i]}”" if i in book.names else ""
    label = lambda k: book.label_names.get(k, f"label {k}")
    heard = len({r for r in book.recordings if r})
    out = [f"{book.file}: {counted(book.n, 'cell')}, {counted(len(book.links), 'link')}, {counted(heard, 'different recording')}", ""]
    for i, recording in enumerate(book.recordings):
        same = [str(book.number[k]) for k in range(book.n) if k != i and recording and book.recordings[k] == recording]
        sound = f"recording {recording}" if recording else "silent"
        out.append(f"cell {book.number[i]}{name(i)}, {sound}" + (f" (as cell {', '.join(same)})" if same else ""))
        out += [f"  {label(k)} → {book.number[t]}{name(t)}" for f, k, t in book.links if f == i] or ["  no links"]
    return "\n".join(out) + "\n"
