"""The page with scripts switched off, on a narrow screen, and of books with private cells."""
import json
import re

from printed import BEYOND
from tried import WIDTHS, Tried

# The numbers of cells that are broken into lines, and so could be taken for others.
BROKEN = """[...document.querySelectorAll('.chip b')].filter(e => e.getBoundingClientRect().height > 2 * parseFloat(getComputedStyle(e).fontSize))
  .map(e => e.textContent).slice(0, 5)"""
# The widths of the pictures, and whether each shows its cell of the pair.
PICTURES = """[...document.querySelectorAll('.graph')].map(graph => { const [all, cell] = [graph.parentNode, graph.querySelector('.start')]
  .map(e => e.getBoundingClientRect()); return [graph.getBoundingClientRect().width, cell.left >= all.left && cell.right <= all.right]; })"""
# Whether the map shows the name of the chosen row, whole, and the chosen square right of the names.
NAMED = """(() => { const [all, names, name, square] = ['#map', '#map .names rect', '#map .names .on', '#map .cursor']
  .map(s => document.querySelector(s).getBoundingClientRect());
  return name.left >= all.left - 1 && name.right <= names.right + 1 && square.left >= names.right - 2 && square.right <= all.right + 2; })()"""
PRIVATE = [[6, 23, 24, 25], [16, 19, 32, 33]]  # the cells that the page "hidden" hides


class Otherwise(Tried):
    def without_scripts(self, name):
        """All that matters can be read with scripts switched off."""
        browser = self.browser
        browser.call("Emulation.setScriptExecutionDisabled", value=True)
        data = self.open(name)
        browser.call("Emulation.setScriptExecutionDisabled", value=False)
        self.answer(name, self.seen(".verdict .big")[0])
        self.check(name, len(self.seen(".nojs")) == 1, "it is said that scripts are off")
        alone = sum(map(len, data["alone"]))
        self.check(name, len(self.seen(".graph .lone")) == alone, "cells without a counterpart are marked in the pictures", alone)
        if data["alone"][0]:
            self.what_differs(name)
        else:
            self.check(name, not self.seen(".ifno"), "of a good answer nothing is said that differs", self.seen(".ifno"))
        dead = [selector for selector in ("#map", "[data-show]", "[data-sheet]", "[data-question]", "button") if self.seen(selector)]
        self.check(name, not dead, "what needs scripts is not shown", dead)
        self.fits(name, "sideways scrolling without scripts")

    def what_differs(self, name):
        """The places, and the lists."""
        places = [len(self.seen(selector)) for selector in (".card", ".card pre", ".card .ask .q", ".card .nota code")]
        self.check(name, places[0] > 0 and len(set(places)) == 1, "ways and question of each place", places)
        lists = [len(self.seen(selector)) for selector in ("#s-alone tr", "#s-partners tr", "#s-questions tr", "svg.graph")]
        self.check(name, min(lists) > 1, "the lists and the pictures", lists)

    def seen(self, selector):
        """The texts of what is shown."""
        return self.browser.js(f"[...document.querySelectorAll({json.dumps(selector)})].filter(e => e.getClientRects().length)"
                               ".map(e => e.innerText || e.textContent)")

    def narrow(self, name):
        """No sideways scrolling at 390 pixels, whatever pair is chosen; and the map names its rows however far it is scrolled."""
        browser = self.browser
        browser.size(390, 800)
        self.open(name)
        browser.js("document.getElementById('map').focus()")
        for key in [None, "ArrowDown", "ArrowRight", "PageDown", "End", "ArrowUp", "Home"]:
            if key:
                browser.key(key)
            wide, room = browser.js(WIDTHS)
            self.check(name, wide <= room, "sideways scrolling at 390 pixels", wide, browser.js(BEYOND))
            broken = browser.js(BROKEN)
            self.check(name, not broken, "numbers of cells are broken at 390 pixels", broken)
            self.check(name, browser.js(NAMED), "the chosen row is named, and its square is seen, at 390 pixels", key)
            pictures = browser.js(PICTURES)
            self.check(name, all(width > 500 and seen for width, seen in pictures), "the pictures can be read at 390 pixels", pictures)
        self.no_faults(name)
        browser.size(1320, 1000)

    def hidden(self):
        """Nothing of hidden cells is in the file: not their names, not their recordings."""
        page, data = self.made["hidden"], self.open("hidden", "#pair-6-33")
        self.no_faults("hidden", "the address of a hidden pair")
        self.check("hidden", not re.search(r"with milk|with sugar|with lemon", page.text), "a hidden name is in the file")
        for side, book, cells in zip(data["books"], page.books, PRIVATE):
            self.check("hidden", not set(side["num"]) & set(cells), "a hidden cell is in the file", side["num"])
            private = {book.recordings[x] for x in cells} - {book.recordings[x] for x in book.cells}
            self.check("hidden", private and not private & set(side["rec"]), "a hidden recording is in the file", private)
