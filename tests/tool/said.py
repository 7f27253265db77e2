"""A report read back, line by line, without names: whatever it says is held against the two books."""
import re

import questions
from spoken import CUT, Spoken

SIDES = {"old": 0, "new": 1}
MANY = r"(?:[\d,]+|about 10 to the power of \d+)"
HOW = {"the same": True, "different": False, "silent, so neither the same nor different": None}


class Said:
    """Checks a report, or the ways of one place. books: as they are seen; meaning: where questions are true in each."""

    def __init__(self, tally, what, books, meaning, alone):
        self.tally, self.what, self.books, self.meaning, self.alone = tally, what, books, meaning, alone
        self.labels = {f"label {label}": label for book in books for label in book.labels()}

    def check(self, good, *more):
        return self.tally.check(good, f"{self.what}: the report", *more)

    # Ways to practise

    def story(self, lines):
        """The lines of the ways of one place."""
        side = start = None
        for line in lines:
            head = re.fullmatch(r"(?:then )?from (old|new) (\d+)", line)
            if head:
                side, start = SIDES[head[1]], int(head[2])
                self.check(start in self.books[side].cells, "no such cell", line)
            elif line == "or" or re.fullmatch(rf"and (1 way|{MANY} ways) more, none of which does", line):
                pass
            elif line == "and so on":
                return
            else:
                self.check(line.startswith("  ") and self.told(side, start, line.strip()), "an unknown line", line)
                continue
            self.here, self.ends = start, []

    def told(self, side, start, line):
        book = self.books[side]
        if line in HOW:
            self.check(len(self.ends) == 2 and book.sound(*self.ends) is HOW[line], f"{line}: the ends sound otherwise", self.ends)
            return True
        if nowhere := re.fullmatch(r"(there )?label (\d+) leads nowhere", line):
            self.check(not book.goes(self.here, int(nowhere[2])), line, self.here)
            return True
        if other := re.fullmatch(r"but (\d+) is not alike(?:, see below)?", line):
            self.check(int(other[1]) in book.cells, line)
            return True
        walk = re.fullmatch(r"(listen here|stay here: \d+|label .*?)(?:   +(silent|recording \d+))?", line)
        if not walk:
            return False
        self.here = self.walk(book, start, walk[1])
        if walk[2]:
            recording = book.recordings[self.here]
            self.check(walk[2] == (f"recording {recording}" if recording else "silent"), "another recording", line)
            self.ends.append(self.here)
        return True

    def walk(self, book, start, text):
        """The end of the way; each of its steps is a link."""
        if text == "listen here":
            return start
        if stay := re.fullmatch(r"stay here: (\d+)", text):
            self.check(int(stay[1]) == start, text)
            return start
        here = start
        for hop in text.split(", "):
            step = re.fullmatch(r"label (\d+) → (\d+)", hop)
            if step:
                self.check(here is None or int(step[2]) in book.goes(here, int(step[1])), f"no link from {here}: {hop}", text)
                here = int(step[2])
            else:
                self.check(re.fullmatch(r"… \d+ links …", hop), "no step", hop)
                here = None
        return here

    # A place

    def title(self, text):
        """What differs at a place, in sentences."""
        forms = (self.linked, self.lacking, self.sounding, self.one_cell, self.heard)
        for sentence in re.findall(r"[^.]+\.", text):
            self.check(any(form(sentence.strip()) for form in forms), "a title", sentence, text)

    def linked(self, sentence):
        found = re.fullmatch(r"(Old|New) cell (\d+) has a link by label (\d+), to (\d+)\.", sentence)
        if not found:
            return False
        self.link = int(found[3])
        return int(found[4]) in self.books[SIDES[found[1].lower()]].goes(int(found[2]), self.link)

    def lacking(self, sentence):
        found = re.fullmatch(r"(Old|New) cell (\d+) has none\.", sentence)
        return found and not self.books[SIDES[found[1].lower()]].goes(int(found[2]), self.link)

    def sounding(self, sentence):
        found = re.fullmatch(r"(Old|New) cells (\d+) and (\d+) sound (the same|different)\.", sentence)
        return found and self.books[SIDES[found[1].lower()]].sound(int(found[2]), int(found[3])) is HOW[found[4]]

    def one_cell(self, sentence):
        found = re.fullmatch(r"In the (old|new) book both ways end in one cell, (\d+)\.", sentence)
        return found and self.books[SIDES[found[1]]].recordings[int(found[2])] != 0

    def heard(self, sentence):
        found = re.fullmatch(r"(Old|New) cell (\d+) (has a sound|is silent)\.", sentence)
        return found and (self.books[SIDES[found[1].lower()]].recordings[int(found[2])] == 0) == (found[3] == "is silent")

    def asked(self, words, answers, text):
        """The question of a place: its notation parts the two cells, and its words have these answers."""
        found = re.fullmatch(r"(yes|no) at old (\d+), (yes|no) at new (\d+)", answers)
        cells = int(found[2]), int(found[4])
        self.check({found[1], found[3]} == {"yes", "no"}, "answers that do not differ", answers)
        text, _, notes = text.partition("   (")
        turned = f"yes at old {cells[0]}, no at new {cells[1]}"
        self.check((turned in notes) == (found[1] == "no"), "notation whose answers are exchanged says so", text, notes, answers)
        if not text.endswith("…"):
            p = questions.read(text)
            self.check([cell in m.where(p) for cell, m in zip(cells, self.meaning)] == [True, False], "a question that does not part", text, answers)
        if not any(cut in words for cut in CUT):
            for p in Spoken(words, self.labels).asked():
                said = ["yes" if cell in m.where(p) else "no" for cell, m in zip(cells, self.meaning)]
                self.check(said == [found[1], found[3]], "words that are answered otherwise", words, answers)
        return cells

    # The whole

    def report(self, text):
        places = re.findall(r"^\d+\. (.*)\n((?:   .*\n)+)", text, re.M)
        concerned = set()
        for title, body in places:
            told, ask, answers, notation, count, cells = re.fullmatch(
                r"((?:.*\n)*?)   ask       (.*)\n {13}(.*)\n   notation  (.*)\n   concerns  (\d+) old cells?: ([\d ]+)\n", body).groups()
            self.title(title)
            self.story([line[3:] for line in told.splitlines()])
            self.asked(ask, answers, notation)
            cells = list(map(int, cells.split()))
            self.check(len(cells) == int(count) and not concerned & set(cells), "cells that a place concerns", cells)
            concerned |= set(cells)
        more = re.search(r"^and \d+ places? more", text, re.M)
        self.check(concerned <= self.alone if more else concerned == self.alone, "places do not account for all cells", concerned, self.alone)
        self.closest(text)
        return len(places)

    def closest(self, text):
        rows = re.findall(r"^  old (\d+) +new (\d+) +place (\d+) +(links alike, sounds not|links not alike) +depth (\d+)", text, re.M)
        self.check({int(row[0]) for row in rows} == self.alone, "old cells without partner", rows, self.alone)
        self.check(all(int(row[1]) in self.books[1].cells for row in rows), "closest cells", rows)
