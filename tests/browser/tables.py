"""The ways to practise as the browser shows them: each table is read back from the page, and held against links and recordings."""
import re

# The rows of a table of ways: the kind of the row, its labels in words, and for both books the lines, each with its cells, its sound and what
# is said.
READ = """(table => [...table.querySelectorAll('tbody tr')].map(row => ({kind: row.className, labels: row.querySelector('th').textContent,
  books: [...row.querySelectorAll('td')].map(td => (td.querySelector('.line') ? [...td.querySelectorAll('.line')] : [td]).map(line => ({
    cells: [...line.querySelectorAll('.chip b')].map(b => +b.textContent), sound: line.querySelector('.rec')?.textContent || '',
    say: line.querySelector('.say')?.textContent || '', text: line.textContent})))})))"""
SAID = {"the same": True, "different": False, "silent: no sound to compare": None}


def steps(text):
    """Labels in words as a list: label 1 twice then label 2"""
    out = []
    for part in re.sub(r"^[12](?=label|stay)", "", text).split(" then "):
        found = re.fullmatch(r"label (\d+)(?: (twice)| (\d+) times)?", part)
        if not found:
            return [] if part == "stay here" else None
        out += [int(found[1])] * (2 if found[2] else int(found[3] or 1))
    return out


class Table:
    def __init__(self, check, books, rows):
        self.check, self.books, self.rows = check, books, rows
        self.at, self.ends = None, []

    def everything(self):
        """Row by row; False if the table is cut, and the rest is not read."""
        for row in self.rows:
            if len(row["books"]) != 2 or "further steps" in row["labels"] + row["books"][0][0]["text"]:
                return
            if row["kind"] == "from":
                self.at, self.ends = [side[0]["cells"][0] for side in row["books"]], []
            elif row["labels"] == "Listen":
                for side, book, x in zip(row["books"], self.books, self.at):
                    self.sound(book, x, side[0])
            elif row["kind"] == "end":
                self.end(row)
            else:
                self.way(row)

    def way(self, row):
        labels = steps(row["labels"])
        if not self.check(labels is not None, "labels of a way", row):
            return
        ends = []
        for book, lines, start in zip(self.books, row["books"], self.at):
            ends.append([self.line(book, start, labels, line) for line in lines])
        self.ends.append(ends)

    def line(self, book, start, labels, line):
        """One way: its cells are reached by the labels, and its end sounds as is said. Gives the end."""
        if "none of which does" in line["text"] or "not needed" in line["text"] or "…" in line["text"]:
            return None
        here, cells = start, line["cells"] if labels else []
        for label, cell in zip(labels, cells):
            self.check(cell in book.goes(here, label), f"no link from {here} by {label} to {cell}", line)
            here = cell
        nowhere = re.fullmatch(r"label (\d+) leads nowhere", line["say"])
        if nowhere:
            self.check(labels[len(cells)] == int(nowhere[1]) and not book.goes(here, int(nowhere[1])), "it leads somewhere", line)
        else:
            self.check(labels or line["cells"] == [start], "staying goes elsewhere", line)
        self.sound(book, here, line)
        return here

    def sound(self, book, x, line):
        if line["sound"]:
            recording = book.recordings[x]
            self.check(line["sound"] == (f"♪ {recording}" if recording else "silent"), f"another recording than {recording}", line)

    def end(self, row):
        """How the ends of the two ways sound, line by line."""
        for side, (book, lines) in enumerate(zip(self.books, row["books"])):
            for k, line in enumerate(lines):
                if line["say"] in SAID:
                    ends = [way[side][k if len(way[side]) > k else 0] for way in self.ends]
                    self.check(None in ends or book.sound(*ends) is SAID[line["say"]], f"{ends} do not sound so", line)
                else:
                    known = ("is not alike" in line["say"], line["say"] == "cannot be done", "none of which does" in line["text"])
                    self.check(any(known), "an unknown end", line)
