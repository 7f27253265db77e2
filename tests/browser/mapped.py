"""The map and what chooses pairs: clicks, buttons, addresses. And a question too long to write."""
import pages
from tried import PANEL, Tried

# The middle of a square of the map, which is scrolled to; squares are drawn row by row, after the ground.
SQUARE = """(() => { const squares = [...document.querySelectorAll('#map rect')].filter(e => e.getAttribute('fill') !== 'none');
  const s = squares[1 + %d]; s.scrollIntoView({block: 'center'}); const b = s.getBoundingClientRect(); return [b.x + b.width / 2, b.y + b.height / 2]; })()"""


# The numbers of labels in the pictures, whole, that cover one another.
COVERED = """(() => { document.getElementById('whole').click(); const all = [...document.querySelectorAll('.graph')].map(graph =>
    [...graph.querySelectorAll('.tags text')].map(e => [e.textContent, e.getBoundingClientRect()]));
  const covers = (a, b) => Math.min(a.right, b.right) - Math.max(a.left, b.left) > 2 && Math.min(a.bottom, b.bottom) - Math.max(a.top, b.top) > 5;
  return all.flatMap(tags => tags.flatMap(([s, a], k) => tags.slice(k + 1).filter(([, b]) => covers(a, b)).map(([t]) => s + ' and ' + t))); })()"""


class Mapped(Tried):
    def map(self):
        """Its squares are the pairs, and a click chooses the one under it."""
        browser, data = self.browser, self.open("example")
        matched = browser.js("document.querySelectorAll('#map circle[fill=\"#fff\"]').length")
        self.check("example", matched == data["pair"].count(-1), "squares drawn as matched", matched)
        rows, columns = data["rows"], data["columns"]
        for row, column in (2, 2), (0, 5), (len(rows) - 1, len(columns) - 1), (len(rows) // 2, 0):
            browser.click(*browser.js(SQUARE % (row * len(columns) + column)))
            self.at_address("example", data, rows[row], columns[column], "a click")
            self.pair("example", data, rows[row], columns[column])
            self.check("example", browser.js("document.querySelectorAll('.graph .start').length") == 2, "both pictures mark the pair")
        self.no_faults("example")

    def buttons(self):
        """They order the map, mark a question's pairs, and show a place."""
        browser, data = self.browser, self.open("example")
        browser.js("document.getElementById('byNumber').click()")
        first = browser.js("document.querySelector('#map .names text').textContent")
        self.check("example", first.endswith(" 0"), "in order of numbers", first)
        browser.js("document.querySelector('#s-questions [data-question]').click()")
        marked = browser.js("document.querySelectorAll('#map rect[stroke=\"#6a1b9a\"]').length")
        self.check("example", marked == data["questions"][0]["pairs"] == data["pair"].count(0) > 0, "a question's pairs are marked", marked)
        shown = browser.js("(b => { b.click(); return b.dataset.show.split(',').map(Number) })(document.querySelector('.card [data-show]'))")
        self.pair("example", data, *shown)
        for _ in range(3):
            browser.key("Tab")
        left = browser.js("document.activeElement !== document.body && document.activeElement.id !== 'map'")
        self.check("example", left, "Tab leaves the map")
        self.no_faults("example")

    def matched(self):
        """Of cells that are alike it is said what to listen to, and that a silent one has no sound."""
        for name, mark, said in (("good", "#pair-0-11", "Both are silent: there is nothing to listen to."),
                                 ("good", "#pair-6-33", "Listen whether they say the same: ♪ 105 in the old book, ♪ 52007 in the new one."),
                                 ("heard", "#pair-0-0", "They do not sound alike: silent in the old book, ♪ 7 in the new one.")):
            self.open(name, mark)
            panel = self.browser.js(PANEL)
            self.check(name, said in panel, "what to listen to", said, panel)
        for name, warned in ("good", False), ("renamed", True):
            self.open(name)
            verdict = self.browser.js("document.querySelector('.verdict').textContent")
            self.check(name, ("4 old cells have partners with other names" in verdict) == warned, "partners with other names", verdict)

    def drawn(self):
        """A small map stays small, and in the pictures no number of a label covers another."""
        self.open("a")
        width = self.browser.js("document.querySelector('#map svg').getBoundingClientRect().width")
        self.check("a", width < 200, "a map of six squares is small", width)
        for name in "plain", "grown", "silent":
            self.open(name)
            covered = self.browser.js(COVERED)
            self.check(name, not covered, "numbers of labels cover one another", covered)

    def address(self):
        """An address opens its pair; one of no pair opens the first."""
        for mark, cells in ("#pair-6-33", [6, 33]), ("#pair-0-0", [0, 0]):
            data = self.open("example", mark)
            self.pair("example", data, *(data["books"][side]["num"].index(x) for side, x in enumerate(cells)))
        self.browser.js("location.hash = '#pair-8-8'")
        self.browser.until("document.querySelector('#pair h3 .chip b').textContent", "8")
        self.pair("example", data, 8, 8)
        for mark in "#pair-99-99", "#pair-0-", "#nothing", "#pair-6-33-1", "#%00":
            data = self.open("example", mark)
            self.pair("example", data, *data["start"])
            self.no_faults("example", f"opened with {mark}")

    def huge(self):
        """The library's question of more than 10^80 characters: its length is said, its parts are few, and it is one click away."""
        browser, data = self.browser, self.open("deep", "#pair-0-0")
        longest = pages.sheet_of(data)[data["map"][0]].length
        said = f"10 to the power of {len(str(longest)) - 1} characters"
        panel = browser.js(PANEL)
        self.check("deep", longest > 10 ** 80 and said in panel, "the length of a huge question", panel[:600], said)
        parts = browser.js("document.querySelectorAll('#pair .parts li').length")
        self.check("deep", 1 < parts < 60, "its parts are few", parts)
        browser.js("document.querySelectorAll('#pair details').forEach(e => e.open = true)")
        self.fits("deep", "opened, it is too wide")
        self.no_faults("deep")
