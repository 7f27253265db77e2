"""A page read back, apart from the tool: its data, and what it says where no script runs."""
import base64
import json
from html.parser import HTMLParser

from questions import KINDS, question

VOID = {"meta", "br", "hr", "img", "input", "link", "circle", "path", "rect", "col"}


class Texts(HTMLParser):
    """The text of a page, with the elements that it stands in, as (tag, attributes, text) of those asked for."""

    def __init__(self, page):
        super().__init__(convert_charrefs=True)
        self.open, self.done, self.data = [], [], None
        self.feed(page)

    def handle_starttag(self, tag, attributes):
        if tag not in VOID:
            self.open.append((tag, dict(attributes), []))

    def handle_endtag(self, tag):
        for at in range(len(self.open) - 1, -1, -1):
            if self.open[at][0] == tag:
                self.done += [(t, a, "".join(text)) for t, a, text in self.open[at:]]
                del self.open[at:]
                return

    def handle_data(self, text):
        for _, _, texts in self.open:
            texts.append(text)

    def all(self, tag, **wanted):
        return [text for t, a, text in self.done if t == tag and all(a.get(k) == v for k, v in wanted.items())]

    def of_class(self, name):
        return [text for _, a, text in self.done if name in (a.get("class") or "").split()]


def data_of(page):
    """The data of the page's script."""
    start = page.index('id="data">') + len('id="data">')
    return json.loads(page[start:page.index("</script>", start)])


def entries_of(data):
    """The questions of the page, by the numbers that its data has for them."""
    known = []
    for kind, *rest in data["entries"]:
        steps = lambda flat: tuple((flat[k], known[flat[k + 1]]) for k in range(0, len(flat), 2))
        known.append(question(KINDS[kind], *(known[x] if kind < 4 else steps(x) for x in rest)))
    return known


def sheet_of(data):
    """The questions of the library's sheet, which the page carries, by entry."""
    sheet, known, at = base64.b64decode(data["sheet"]), [], 8
    width = sheet[4]
    field = lambda place, size: int.from_bytes(sheet[place:place + size], "big")
    steps = lambda place, count: tuple((field(k, width), known[field(k + width, 2)]) for k in range(place, place + count * (width + 2), width + 2))
    while at < len(sheet):
        kind, body = sheet[at + 1], at + 2
        if kind < 4:
            of = [known[field(body + 2 * k, 2)] for k in range((sheet[at] - 1) // 2)]
        elif kind == 4:
            of = [steps(body + 1, sheet[body])]
        else:
            of = [steps(body + 2, sheet[body]), steps(body + 2 + sheet[body] * (width + 2), sheet[body + 1])]
        known.append(question(KINDS[kind], *of))
        at += 1 + sheet[at]
    return known
