"""Questions in words against their truth: the words of many random questions are read back, and mean that question and nothing else. Equal words,
equal truth. The words of each construct are those of a table."""
import html
import re

import books
import questions
from books import Book, seeded
from questions import Meaning, Unreadable, question
from spoken import CUT, MARKS, Spoken
from tally import Tally

LABELS = {1: "look up", 2: "look right", 3: "long blink"}
NAMED = {name: label for label, name in LABELS.items()}

# The words of each construct, at the front and in a test.
TABLE = {
    "</1[<.>]>": "Does look up lead anywhere?",
    "</1[<.>]/1[<.>]/2[<.>]>": "Does look up twice then look right lead anywhere?",
    "</4[<.>]>": "Does label 4 lead anywhere?",
    "</65535[<.>]>": "Does label 65535 lead anywhere?",
    "!(</1[<.>]>)": "Does look up lead anywhere?",
    "</1[!(</2[<.>]>)]>": "Can look up lead to a cell where look right leads nowhere?",
    "</1[!(</2[<.>]/3[<.>]>)]>": "Can look up lead to a cell where look right then long blink leads nowhere?",
    "</1[</2[<.>]>]>": "Does look up then look right lead anywhere?",
    "</1[!(</2[!(</3[<.>]>)]>)]>": "Can look up lead to a cell where look right leads only to cells where long blink leads somewhere?",
    "<.=/1[<.>]>": "Listen here. Then go look up, and listen. Can the two sound the same?",
    "<.!=/1[<.>]>": "Listen here. Then go look up, and listen. Can the two sound different?",
    "</1[<.>]!=.>": "Listen here. Then go look up, and listen. Can the two sound different?",
    "</1[<.>]=/2[<.>]>": "Go look up, and listen. Then from here go look right, and listen. Can the two sound the same?",
    "</1[<.>]!=/2[<.>]>": "Go look up, and listen. Then from here go look right, and listen. Can the two sound different?",
    "</3[</1[<.>]=/2[<.>]>]>":
        "Go long blink. From there go look up, and listen. Again from there go look right, and listen. Can the two sound the same?",
    "</3[<.!=/2[<.>]>]>": "Go long blink, and listen. Go on look right, and listen. Can the two sound different?",
    "</1[!(<.=/2[<.>]>)]>": "Can look up lead to a cell where look right never sounds like that cell?",
    "</1[!(<.!=/2[<.>]>)]>": "Can look up lead to a cell where look right never sounds different from that cell?",
    "</1[(</2[<.>]=/3[<.>]>&</1[<.>]>)]>":
        "Can look up lead to a cell where (a) look right, and long blink, can sound the same, and (b) look up leads somewhere?",
    "</1[!(</2[<.>]!=/3[<.>]>)]>": "Can look up lead to a cell where look right, and long blink, never sound different?",
    "(</1[<.>]>&</2[<.>]>)": "Is it so that (a) look up leads somewhere, and (b) look right leads somewhere?",
    "(</1[<.>]>|!(</2[<.>]>))": "Is it so that (a) look up leads somewhere, or (b) look right leads nowhere?",
    "</3[!((</1[<.>]>&</2[<.>]>))]>": "Can long blink lead to a cell where (a) look up leads nowhere, or (b) look right leads nowhere?",
    "</3[!((</1[<.>]>|</2[<.>]>))]>": "Can long blink lead to a cell where (a) look up leads nowhere, and (b) look right leads nowhere?",
    "<.=.>": "Is a sound heard here?",
    "</1[<.=.>]>": "Can look up lead to a cell where a sound is heard?",
    "</1[!(<.=.>)]>": "Can look up lead to a cell where no sound is heard?",
}


class Worded:
    def __init__(self, worker, count):
        self.tally, self.worker, self.count = Tally("words"), worker, count
        rnd = seeded("words")
        drawn = [books.any_book(rnd, 5) for _ in range(14)] + [books.random_book(rnd, 5, 2.4, 3, 2) for _ in range(6)]
        self.books = [Meaning(self.labelled(rnd, book)) for book in drawn]

    @staticmethod
    def labelled(rnd, book):
        return Book(book.recordings, {(x, rnd.choice(list(LABELS)), y) for x, _, y in book.links})

    def truth(self, p):
        return tuple(meaning.where(p) for meaning in self.books)

    def words(self, asked, names, kind="plain"):
        """The words of each question, by sheets that hold some hundred of them."""
        out = []
        for k in range(0, len(asked), 200):
            sheet, entries = questions.sheet(asked[k:k + 200])
            out += self.worker.words(sheet, entries, names, kind)
        return out

    def everything(self):
        self.by_table()
        read, cut = self.read_back()
        self.named_alike()
        return self.tally.end(f"{read} random questions mean what their words say, and no two with equal words differ "
                              f"({cut} more have words that stop short)")

    def by_table(self):
        asked = [questions.read(text) for text in TABLE]
        for (text, expected), said in zip(TABLE.items(), self.words(asked, [LABELS, LABELS])):
            self.tally.check(said == expected, f"the words of {text}", said, expected)

    def questions(self):
        rnd = seeded("questions")
        known = {}
        while len(known) < self.count:
            known.setdefault(front(questions.random_question(rnd, rnd.choice([1, 2, 2, 3, 3, 4, 5, 7]), list(LABELS), rnd.randint(0, 3))))
        return list(known)

    def read_back(self):
        """Of each question, all that its words can mean has its truth."""
        asked, cut, groups = self.questions(), 0, {}
        plain, on_page = self.words(asked, [LABELS, LABELS]), self.words(asked, [LABELS, LABELS], "html")
        for p, said, shown in zip(asked, plain, on_page):
            self.tally.check(text_of(shown) == said, f"{said}\n    and on the page", text_of(shown))
            if any(words in said for words in CUT):
                cut += 1
                continue
            truth = self.truth(p)
            first = groups.setdefault(said, (truth, p))
            self.tally.check(first[0] == truth, f"equal words, other truth: {said}", *map(notation, (first[1], p)))
            try:
                meant = {self.truth(q) for q in Spoken(said, NAMED).asked()}
                self.tally.check(meant == {truth}, f"the words mean something else: {said}", notation(p), len(meant))
            except Unreadable as fault:
                self.tally.check(False, f"{notation(p)}: {fault}")
        self.tally.check(cut < len(asked) // 3, f"{cut} of {len(asked)} words stop short")
        return len(asked) - cut, cut

    def named_alike(self):
        """Also where labels have one name, or names that look like other words."""
        asked = [p for p in self.questions() if p.length < 60][:400]
        alike = [{1: "look", 2: "look", 3: "blink"}, {1: "label 2", 2: "label 3", 3: "label 1"}, {1: "look", 2: "look (label 1)", 3: "look"},
                 {1: "look", 2: "look twice", 3: "look then look"}, {1: "a", 2: "a leads somewhere", 3: "(a) a"}]
        pairs = [(names, names) for names in alike] + [({1: "look"}, {2: "look"}), ({1: "look", 2: "blink"}, {2: "look", 1: "blink"})]
        for old, new in pairs:
            groups = {}
            for p, said in zip(asked, self.words(asked, [old, new], "html")):
                first = groups.setdefault(said, (self.truth(p), p))
                good = first[0] == self.truth(p)
                self.tally.check(good, f"equal words, other truth, with names {old} and {new}: {said}", *map(notation, (first[1], p)))
                if not good:
                    break


def front(p):
    """The question without a not in front, which words leave out."""
    while p.kind == "not":
        p = p.of[0]
    return p


def notation(p):
    return questions.write(p) if p.length < 2000 else f"a question of {p.length} characters"


def text_of(words):
    """Words as the page shows them, with lists, as one text: within a list a list stands between square brackets, what joins it on after them."""
    counts, out = [], ""
    for mark, text in re.findall(r"<(/?[a-z]+)[^>]*>|([^<]+)", words):
        if mark == "ul":
            out += "[" * bool(counts)
            counts.append(0)
        elif mark == "/ul":
            counts.pop()
            out = re.sub(r"(, and|, or|\?)$", r"]\1", out) if counts else out
        elif mark == "li":
            out += " " * (counts[-1] > 0) + f"({MARKS[counts[-1]]}) "
            counts[-1] += 1
        out += html.unescape(text).replace("\xa0", " ")
    return out
