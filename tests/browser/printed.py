"""The page on paper: A4, with nothing cut off, and a sheet for the bed on one page."""
from paper import is_a4, sheets
from tried import WIDTHS, Tried

BETWEEN_MARGINS = 695  # pixels that A4 leaves between its margins
# What hides a part of what it has.
CUT_OFF = """[...document.querySelectorAll('body *')].filter(e => { const s = getComputedStyle(e), hides = v => v !== 'visible';
  if (e.ownerSVGElement || e.tagName === 'svg' || !e.getClientRects().length || s.textOverflow === 'ellipsis') return false;
  return hides(s.overflowX) && e.scrollWidth > e.clientWidth + 1 || hides(s.overflowY) && e.scrollHeight > e.clientHeight + 1; })
  .map(e => `${e.tagName}.${e.className}#${e.id}`).slice(0, 5)"""
# What reaches past the right edge.
BEYOND = """[...document.querySelectorAll('body *')].filter(e => !e.ownerSVGElement && e.getBoundingClientRect().right > innerWidth + 1)
  .map(e => `${e.tagName}.${e.getAttribute('class')}#${e.id} ${Math.round(e.getBoundingClientRect().right)}`).slice(0, 5)"""
NEEDED = ["#pair .ask .q", "#pair .ask .a", "#pair .walktable"]
NOT_NEEDED = ["#map", "#s-questions", "#s-read", "nav", "header"]


class Printed(Tried):
    def print(self, name, most):
        """The whole page, on at most so many sheets."""
        self.open(name)
        found = sheets(self.browser.pdf())
        self.check(name, all(map(is_a4, found)) and 1 <= len(found) <= most, f"printed on A4, at most {most} sheets", found)
        self.on_paper(lambda: self.whole(name))

    def on_paper(self, look):
        """Looks at the page as it is for print, in the width of the paper."""
        self.browser.call("Emulation.setEmulatedMedia", media="print")
        self.browser.size(BETWEEN_MARGINS, 1000)
        self.browser.js("dispatchEvent(new Event('beforeprint'))")
        look()
        self.browser.js("dispatchEvent(new Event('afterprint'))")
        self.browser.call("Emulation.setEmulatedMedia", media="")
        self.browser.size(1320, 1000)

    def whole(self, name):
        (wide, room), cut, beyond = map(self.browser.js, (WIDTHS, CUT_OFF, BEYOND))
        self.check(name, wide <= room and not cut and not beyond, "cut off in print", wide, room, cut, beyond)

    def sheet(self, name):
        """A sheet for the bed is one page of A4, with the question, its answers and the ways alone; afterwards the page is whole again."""
        browser = self.browser
        self.open(name)
        browser.js("window.print = () => {}")
        count = browser.js("document.querySelectorAll('.card [data-sheet]').length")
        for k in range(min(count, 4)):
            press = f"document.querySelectorAll('.card [data-sheet]')[{k}].click()"
            browser.js(press)
            self.on_paper(lambda: self.sheet_alone(name))
            browser.js(press)
            found = sheets(browser.pdf())
            self.check(name, len(found) == 1 and is_a4(found[0]), f"sheet {k + 1} is one page of A4", found)
        self.check(name, count > 0 and browser.js("document.body.className") == "", "after printing the page is whole again")
        self.no_faults(name)

    def sheet_alone(self, name):
        height = lambda selectors: self.browser.js(f"{selectors}.map(s => document.querySelector(s)?.getBoundingClientRect().height || 0)")
        shown, others = height(NEEDED), height(NOT_NEEDED)
        self.check(name, min(shown) > 10 and max(others) == 0, "a sheet has the question, the answers and the ways alone", shown, others)
        self.whole(name)
