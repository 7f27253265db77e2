"""The page: a comparison as one HTML file that needs nothing else. page.html is its template, with page.css and page.js in it."""
import base64
import hashlib
import html
import json
import os
import re

from books import NEW, OLD, SIDE
from files import shown
from pictures import picture
from questions import AND, DEPTH, LENGTH, NODES, NOT, OR, TRUE, in_order
from report import Report
from words import asked, clause_html, counted, large, long, marked, plain

HERE = os.path.dirname(os.path.abspath(__file__))
LISTED = 40  # questions listed at once
LONGEST_CODE = 700
NUMBERS = ["No", "One", "Two", "Three", "Four", "Five", "Six", "Seven", "Eight", "Nine", "Ten"]


class Page:
    def __init__(self, comparison, graphviz=True):
        self.c, self.report, self.graphviz = comparison, Report(comparison), graphviz
        self.form = self.report.form
        self.uses = {}
        for pair, p in comparison.short.items():
            self.uses.setdefault(p, []).append(pair)
        order = sorted(self.uses, key=lambda p: (-len(self.uses[p]), DEPTH[p], LENGTH[p], p))
        self.ids = {p: k for k, p in enumerate(order)}

    # Pieces

    def chip(self, side, i):
        book = self.c.books[side]
        name = book.names.get(i, "")
        called = f" <span>{html.escape(name)}</span>" if name else ""
        return f'<span class="chip {SIDE[side]}{long(name)}"><b>{book.number[i]}</b>{called}</span>'

    def chips(self, side, cells):
        return " ".join(self.chip(side, i) for i in cells)

    def tag(self, side, i):
        return f'<span class="tag {SIDE[side]}">{SIDE[side]} {self.report.number(side, i)}</span>'

    def code(self, p, limit=LONGEST_CODE):
        text, length = self.report.notation(p, limit)
        shown = html.escape(text).replace("[&lt;.&gt;]", "<i>[&lt;.&gt;]</i>")
        return f"<code>{shown}</code>" + (f" <span class=note>({length})</span>" if length else "")

    def ask(self, p):
        return clause_html(self.c.speaker.question(p))

    def title(self, place):
        return re.sub("\3(.),(\\d+)\4", lambda f: self.chip(int(f[1]), int(f[2])), marked(self.report.place_title(place)))

    # Sections

    def verdict(self):
        yes = not self.c.alone[OLD]
        icon = '<circle cx="32" cy="32" r="29"/><path d="M18 33 l10 10 l19 -21"/>' if yes else (
            '<path class=oct d="M20 4h24l16 16v24l-16 16h-24l-16-16v-24z"/><path d="M21 21l22 22M43 21l-22 22"/>')
        head, _, more = self.report.verdict().partition(" ")
        means, note = self.means_yes() if yes else self.means_no()
        return (f'<div class="verdict {"yes" if yes else "no"}"><svg viewBox="0 0 64 64" aria-hidden=true>{icon}</svg>'
                f"<div><p class=big><strong>{head}</strong> {more}</p><p>{means}</p><p>{note}</p>{self.other_names()}</div></div>")

    def means_yes(self):
        return self.form.yes_means, (
            "<b>Listen before you hand over the tablet.</b> The studio numbers recordings anew, so no number of one book is held against a number of "
            "the other: whether a cell says the right word only listening can tell.")

    def other_names(self):
        """How many old cells are alike with cells that are called otherwise."""
        found = sum(len(old) for old, new in self.c.groups() if self.c.names_differ(old, new))
        called = f"{counted(found, 'old cell')} {self.form.differ_note[found > 1]}"
        return f'<p><b>{called}</b> (<a href="#s-partners">{self.form.partners_title}</a>): listen to these first.</p>' if found else ""

    def means_no(self):
        it, places = "it" if len(self.c.alone[OLD]) == 1 else "them", len(self.c.places)
        account = "One place accounts" if places == 1 else f"{number(places)} places account"
        note = f"{account} for {it.replace('them', 'all of them')}. {'It is' if places == 1 else 'They are'} shown below, with the ways to practise."
        return self.form.no_means.format(it), note

    def facts(self):
        rows = "".join(self.book_row(side, book) for side, book in enumerate(self.c.books))
        here = lambda bound: " class=here" if bound == self.c.bound else ""
        heads = "".join(f"<th{here(bound)}>{bound}</th>" for bound in range(5))
        cells = "".join(f"<td{here(bound)}>{k}</td>" for bound, k in enumerate(self.c.missing))
        strictest = ", the strictest" if self.c.bound == 4 else ""
        caption = f"How strict? Old cells {self.form.alone} at each bound. This page is for bound {self.c.bound}{strictest}."
        return (f"<div class=facts><table class=books>{rows}</table><table class=strict><caption>{caption}</caption>"
                f"<tr><th class=lead>bound</th>{heads}</tr><tr><th class=lead>cells</th>{cells}</tr></table></div>")

    def book_row(self, side, book):
        """The book's file and sizes; its fingerprint only if nothing is hidden, since it depends on every byte."""
        seal = "" if book.hidden else f"fingerprint {hashlib.sha256(book.data).hexdigest()[:12]}"
        private = ", without its private cells" if book.hidden else ""
        return (f'<tr><th><span class="tag {SIDE[side]}">{SIDE[side]} book</span></th><td><b>{html.escape(book.file)}</b></td>'
                f"<td>{counted(book.n, 'cell')}, {counted(len(book.links), 'link')}{private}</td><td class=note>{seal}</td></tr>")

    def answers(self, i, j):
        old, new = self.c.shown_answers(i, j)
        return f"<p class=a>{self.tag(OLD, i)} <b>{old}</b> {self.tag(NEW, j)} <b>{new}</b></p>"

    def cards(self):
        return "".join(self.card(k, place) for k, place in enumerate(self.c.places, 1))

    def card(self, k, place):
        i, j = place["pair"]
        p = self.c.short[i, j]
        lines = html.escape("\n".join(self.report.story(place["story"], "")))
        return (f"<article class=card data-i={i} data-j={j}><h3><span class=place>{k}</span> {self.title(place)}</h3>"
                f'<div class=walk data-story={place["story"]}><pre>{lines}</pre></div>'
                f"<div class=ask><p class=q>{self.ask(p)}</p>{self.answers(i, j)}</div>"
                f"<p class=nota><span class=note>In notation, yes at old {self.report.number(OLD, i)} and no at new "
                f"{self.report.number(NEW, j)}:</span> {self.code(p)}</p>"
                f"<p class=concerns>Accounts for {counted(len(place['cells']), 'old cell')}: {self.chips(OLD, place['cells'])}</p>"
                f'<p class="buttons screen needs"><button data-show="{i},{j}">Show in the map and the pictures</button> '
                f'<button data-sheet="{i},{j}">Print a sheet for the bed</button></p></article>')

    def alone(self):
        rows = "".join(self.alone_row(i) for i in self.c.alone[OLD])
        return ("<table class=list><thead><tr><th>Old cell</th><th>Closest new cell</th><th>What fails</th><th>Ask, at both</th><th>Place</th>"
                f"<th class=screen></th></tr></thead><tbody>{rows}</tbody></table>")

    def alone_row(self, i):
        near = self.c.closest[i]
        j = near[0]
        others = ", ".join(self.report.number(NEW, x) for x in near[1:4]) + (" …" if len(near) > 4 else "")
        more = f" <span class=note>or {others}</span>" if len(near) > 1 else ""
        what = "links agree, sounds do not" if self.c.only_sounds(i, j) else "links do not agree"
        old, new = self.c.shown_answers(i, j)
        called = f"Show old {self.report.number(OLD, i)} and new {self.report.number(NEW, j)}"
        return (f"<tr><td>{self.chip(OLD, i)}</td><td>{self.chip(NEW, j)}{more}</td><td class=what>{what}</td>"
                f"<td>{self.ask(self.c.short[i, j])} <span class=ans>old <b>{old}</b>, new <b>{new}</b></span></td>"
                f"<td class=c><span class=place>{self.c.place_of[i] + 1}</span></td>"
                f'<td class="screen needs"><button data-show="{i},{j}" aria-label="{called}">Show</button></td></tr>')

    def groups(self):
        rows = [self.group_row(a, b) for a, b in self.c.groups()]
        half = (len(rows) + 1) // 2
        table = lambda some: f'<table class="list groups">{"".join(some)}</table>' if some else ""
        out = f"<div class=two>{table(rows[:half])}{table(rows[half:])}</div>" if rows else f"<p>{self.form.nobody}</p>"
        if self.c.alone[NEW]:
            out += f"<p><b>{self.form.alone_new}:</b> {self.chips(NEW, self.c.alone[NEW])}</p>"
        return out

    def group_row(self, a, b):
        sizes = (len(a) > 1, len(b) > 1)
        kind = "" if self.c.one_way else {(False, True): "split", (True, False): "joined", (True, True): "a group that does the same"}.get(sizes, "")
        listen = "<span class=warn>names differ: listen</span>" if self.c.names_differ(a, b) else ""
        return (f"<tr><td>{self.chips(OLD, a)}</td><td class=eq>{self.form.joiner}</td><td>{self.chips(NEW, b)}</td>"
                f"<td class=note>{kind} {listen}</td></tr>")

    def listed(self):
        if not self.ids:
            return "<p>No pair is parted, so there is no question.</p>"
        rows = "".join(self.question_row(p, k) for p, k in self.ids.items())
        more = (f'<p class="screen needs"><button id=allq>Show all {len(self.ids)} questions</button></p>'
                f'<p class="print note needs">The {LISTED} that part the most pairs, of {len(self.ids)}.</p>') if len(self.ids) > LISTED else ""
        return ('<table class="list qs"><thead><tr><th>Pairs</th><th>Question in words</th><th>In notation</th><th class=screen></th></tr></thead>'
                f"<tbody>{rows}</tbody></table>{more}")

    def question_row(self, p, k):
        note = ' <span class=note>(old no, new yes)</span>' if asked(p) != p and self.c.shown_answers(*self.uses[p][0]) == ("no", "yes") else ""
        later = " class=later" if k >= LISTED else ""
        return (f"<tr{later}><td class=r>{len(self.uses[p])}</td><td>{self.ask(p)}{note}</td><td>{self.code(p, 160)}</td>"
                f'<td class="screen needs"><button data-question={k} aria-pressed=false>Mark</button></td></tr>')

    # What the scripts use

    def orders(self):
        """Rows and columns with partners side by side, then old cells without partner beside the closest new cell."""
        rows, columns = [], {}
        for a, b in self.c.groups():
            rows += a
            columns.update(dict.fromkeys(b))
        for i in self.c.alone[OLD]:
            rows.append(i)
            columns.update(dict.fromkeys([j for j in self.c.closest[i] if j not in columns][:1]))
        columns.update(dict.fromkeys(range(self.c.m)))
        return rows, list(columns)

    def data(self):
        """All that the page's scripts need; pairs are in order, rows by old cells."""
        c, entries = self.c, Entries()
        pairs = [(i, j) for i in range(c.n) for j in range(c.m)]
        rows, columns = self.orders()
        return {
            "books": [book_data(book) for book in c.books],
            "labels": {k: plain(c.speaker.label(k)) for k in sorted({k for book in c.books for _, k, _ in book.links})},
            "bound": c.bound, "oneWay": c.one_way, "depth": [c.depth(i, j) for i, j in pairs], "links": [int(c.links_agree[i][j]) for i, j in pairs],
            "pair": [self.ids[c.short[pair]] if pair in c.short else -1 for pair in pairs],
            "story": [c.story(*pair) if pair in c.short else -1 for pair in pairs], "stories": [told(story) for story in c.practice.stories],
            "closest": [[i, near[0]] for i, near in c.closest.items()], "alone": c.alone, "rows": rows, "columns": columns,
            "map": [k for row in c.at for k in row], "sheet": base64.b64encode(c.sheet).decode(),
            "questions": [self.question_data(p, entries) for p in self.ids], "entries": entries.all,
            "start": list(c.places[0]["pair"]) if c.places else [0, c.partners[0][0]],
        }

    def question_data(self, p, entries):
        text, length = self.report.notation(p, LONGEST_CODE)
        answers = self.c.shown_answers(*self.uses[p][0])
        return {"ask": self.ask(p), "answers": answers, "pairs": len(self.uses[p]), "entry": entries.of(p), "text": text, "length": length}

    # The whole

    def names_note(self):
        files = [html.escape(shown(book.names_file)) for book in self.c.books if book.names_file]
        if not files:
            return "Cells, recordings and labels are shown by their numbers; names can be given in a file beside each book."
        clash = ", ".join(map(str, self.c.speaker.clash))
        warn = f"<p class=warn>The two files of names call label {clash} differently; the old book’s name is shown.</p>" if clash else ""
        return f"Names are from {' and '.join(dict.fromkeys(files))}; the comparison does not see them.{warn}"

    def legend(self):
        used = sorted({k for book in self.c.books for _, k, _ in book.links} & self.c.speaker.label_names.keys())
        return " · ".join(f"<b>{k}</b> {html.escape(self.c.speaker.label_names[k])}" for k in used)

    def fields(self):
        c = self.c
        files = [html.escape(book.file) for book in c.books]
        footer = f"{c.books[OLD].file}, {c.books[NEW].file}, bound {c.bound}"
        pictures = [picture(book, side, c.speaker, set(c.alone[side]), self.graphviz) for side, book in enumerate(c.books)]
        data = json.dumps(self.data(), separators=(",", ":"), ensure_ascii=False)
        return {
            "CSS": template("page.css"), "JS": template("page.js"), "TITLE": f"{files[NEW]} in place of {files[OLD]}?", "VERDICT": self.verdict(),
            "FACTS": self.facts(), "NAMES": self.names_note(), "CARDS": self.cards(), "ALONE": self.alone() if c.alone[OLD] else "",
            "GROUPS": self.groups(), "QUESTIONS": self.listed(), "COUNT": f"{len(self.ids):,}", "LEGEND": self.legend(),
            "OLDFILE": files[OLD], "NEWFILE": files[NEW], "OLDGRAPH": pictures[OLD], "NEWGRAPH": pictures[NEW], "BOUND": str(c.bound),
            "MATCHED": f"{c.matched:,}", "PAIRS": f"{c.n * c.m:,}", "STATE": "no" if c.alone[OLD] else "yes",
            "ALONETITLE": self.form.alone_title, "PARTNERSTITLE": self.form.partners_title, "MATCHEDWORD": self.form.matched,
            "ORDERWORD": self.form.order, "PLACESWORDS": self.form.places, "PARTNERSWORDS": self.form.partners, "READFORM": self.form.reading,
            "FOOTER": re.sub(r"[^A-Za-z0-9 ,._-]", lambda f: f"\\{ord(f[0]):x} ", footer), "DATA": data.replace("<", "\\u003c"),
        }

    def text(self):
        """The page's HTML."""
        fields = self.fields()
        style = template_filled(fields["CSS"], fields)
        return template_filled(template("page.html"), {**fields, "CSS": style})


class Entries:
    """Questions for the page's scripts: `all` has [kind, ...] with the parts' places; steps are label, place, label, place."""

    def __init__(self):
        self.all, self.place = [], {}

    def of(self, p):
        for x in in_order(p, self.place):
            key = NODES[x]
            flat = key[0] in (TRUE, NOT, AND, OR)
            parts = [self.place[part] for part in key[1:]] if flat else [
                [v for label, test in steps for v in (label, self.place[test])] for steps in key[1:]]
            self.place[x] = len(self.all)
            self.all.append([key[0], *parts])
        return self.place[p]


def book_data(book):
    return {"file": book.file, "num": book.number, "rec": book.recordings, "names": [book.names.get(i, "") for i in range(book.n)]}


def told(story):
    """A story for the page's scripts, which cannot hold every number."""
    return {**story, "more": large(story["more"])} if story.get("more") else story


def number(k):
    return NUMBERS[k] if k < len(NUMBERS) else str(k)


def template(name):
    with open(os.path.join(HERE, name), encoding="utf-8") as file:
        return file.read()


def template_filled(text, fields):
    return re.sub(r"\{\{([A-Z]+)\}\}", lambda found: fields[found[1]], text)
