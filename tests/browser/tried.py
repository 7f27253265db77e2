"""What is tried of every page: it opens with no script error and no request but the file, says its answer, fits the screen, and its pairs can be
walked by keys, each with what the books are."""
import json
import re

import pages
from tables import READ, Table

KEYS = ["ArrowDown", "ArrowRight", "ArrowRight", "ArrowDown", "ArrowLeft", "ArrowUp", "End", "ArrowRight", "PageDown", "ArrowDown", "Home",
        "ArrowLeft", "PageUp", "ArrowUp"] + ["ArrowRight", "ArrowDown"] * 3
WIDTHS = "[document.documentElement.scrollWidth, innerWidth]"
PANEL = "document.getElementById('pair').textContent"
# What is seen of the chosen pair: the line below the map, and from the panel its text, its cells, and of its question the words, the answers and
# the notation.
CHOSEN = """(() => { const texts = s => [...document.querySelectorAll(s)].map(e => e.textContent), first = s => texts(s)[0] || '';
  return {readout: first('#readout'), panel: first('#pair'), cells: texts('#pair h3 .chip b').map(Number), words: first('#pair .ask .q'),
    answers: texts('#pair .ask .a b'), notation: first('#pair .nota code')}; })()"""


class Tried:
    def __init__(self, tally, browser, made):
        self.tally, self.browser, self.made = tally, browser, made

    def check(self, name, good, what, *more):
        return self.tally.check(good, f"{name}: {what}", *more)

    def open(self, name, mark=""):
        """Opens the page anew, and gives its data."""
        self.browser.open("about:blank")
        self.browser.open(self.made[name].address + mark)
        return pages.data_of(self.made[name].text)

    def fits(self, name, what):
        wide, room = self.browser.js(WIDTHS)
        self.check(name, wide <= room, what, wide, room)

    def no_faults(self, name, what="script errors"):
        faults = self.browser.faults()
        self.check(name, not faults, what, faults)

    def every(self, name):
        browser, page, data = self.browser, self.made[name], self.open(name)
        self.check(name, browser.requests() == [page.address], "a request but the file", browser.requests())
        self.answer(name, browser.js("document.querySelector('.verdict .big').textContent"))
        self.fits(name, "sideways scrolling")
        self.by_keys(name, data)
        self.no_faults(name)

    def answer(self, name, text):
        """The page's answer is the one that the command gave, with its status."""
        result = self.made[name].result
        said = result.out.partition(" See ")[0]
        self.check(name, " ".join(text.split()) == said, "the answer", text, said)
        self.check(name, result.status == (0 if said.startswith("Yes.") else 1), "the status", result)

    def by_keys(self, name, data):
        """The keys lead through the map as its order of rows and columns says."""
        self.browser.js("document.getElementById('map').focus()")
        rows, columns = data["rows"], data["columns"]
        at = [rows.index(data["start"][0]), columns.index(data["start"][1])]
        for key in KEYS:
            self.browser.key(key)
            at = moved(at, key, len(rows), len(columns))
            self.pair(name, data, rows[at[0]], columns[at[1]])
        self.at_address(name, data, rows[at[0]], columns[at[1]], "the address after keys")

    def at_address(self, name, data, i, j, what):
        """The address becomes that of the pair."""
        address = "#pair-{}-{}".format(*numbers(data, i, j))
        got = self.browser.until("location.hash", address)
        self.check(name, got == address, what, got, address)

    def pair(self, name, data, i, j):
        """What is seen is of this pair, and tells what the books are."""
        chosen, (old, new) = self.browser.js(CHOSEN), numbers(data, i, j)
        self.check(name, re.match(rf"old {old}\b.*, new {new}\b", chosen["readout"]), "the line below the map", chosen["readout"], old, new)
        self.check(name, chosen["cells"] == [old, new], "the panel's pair", chosen["cells"], old, new)
        k = data["pair"][i * len(data["books"][1]["num"]) + j]
        state = "Parted:" if k >= 0 else "Covered." if data["oneWay"] else "Matched."
        self.check(name, state in chosen["panel"] and ("parted" in chosen["readout"]) == (k >= 0), "matched or parted", chosen)
        self.check(name, not re.search(r"undefined|NaN|null|\[object", chosen["panel"]), "the panel", chosen["panel"][:400])
        if k >= 0:
            self.question(name, data["questions"][k], chosen)
        if not any(any(side["names"]) for side in data["books"]) and not any("label" not in words for words in data["labels"].values()):
            self.tables(name)

    def question(self, name, asked, chosen):
        """The panel has the question's words, its answers and its notation."""
        words = self.browser.js(f"(e => {{ e.innerHTML = {json.dumps(asked['ask'])}; return e.textContent }})(document.createElement('p'))")
        self.check(name, words == chosen["words"], "the words in the panel", words, chosen["words"])
        self.check(name, chosen["answers"] == asked["answers"], "the answers in the panel", chosen["answers"])
        self.check(name, asked["length"] or chosen["notation"] == asked["text"], "the notation in the panel", chosen["notation"])

    def tables(self, name):
        """The tables of ways, with numbers for names."""
        check = lambda good, *more: self.check(name, good, "the table of ways", *more)
        for table in self.browser.js(f"[...document.querySelectorAll('#pair .walktable')].map({READ})"):
            Table(check, self.made[name].books, table).everything()


def numbers(data, i, j):
    """The numbers of a pair in its books."""
    return data["books"][0]["num"][i], data["books"][1]["num"][j]


def moved(at, key, rows, columns):
    """Where a key leads in the map."""
    row, column = at
    row, column = {"ArrowUp": (row - 1, column), "ArrowDown": (row + 1, column), "ArrowLeft": (row, column - 1), "ArrowRight": (row, column + 1),
                   "Home": (row, 0), "End": (row, columns - 1), "PageUp": (0, column), "PageDown": (rows - 1, column)}[key]
    return [min(rows - 1, max(0, row)), min(columns - 1, max(0, column))]
