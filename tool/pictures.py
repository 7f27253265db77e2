"""A book as a picture, a graph from left to right. Graphviz lays it out where it is installed and the book has few enough links, else layers
does. A line stands for all links between two cells, both ways; a label's number stands near the cell that it starts from."""
import html
import shutil
import subprocess
import unicodedata

from books import OLD, SIDE
from words import plain

CELL_HEIGHT = 26
MOST_LINKS = 260  # that Graphviz is asked to lay out
MOST_LINES = 130  # with numbers of labels
TALLEST = 22  # cells in a column
LONGEST_NAME = 15
SECONDS = 20


def wide(text):
    """How wide a text is, in letters of middle width."""
    return sum(2 if unicodedata.east_asian_width(c) in "WF" else 1.4 if c in "mwMW@%" else 1 for c in text)


def cut(text, size):
    """A text that is no wider than so many letters."""
    if wide(text) <= size:
        return text
    while wide(text) > size - 1:
        text = text[:-1]
    return text + "…"


def sound(book, i):
    return "silent" if book.silent(i) else f"♪{book.recordings[i]}"


def cell_width(book, i):
    name = cut(book.names.get(i, ""), LONGEST_NAME)
    return 32 + 7 * wide(name) + 6.8 * len(sound(book, i)) + 7.7 * len(str(book.number[i]))


def lines_of(book):
    """(cell, cell), the lower first -> labels there, labels back"""
    out = {}
    for f, label, t in book.links:
        there, back = out.setdefault((min(f, t), max(f, t)), ([], []))
        (there if f <= t else back).append(label)
    return out


class Layout:
    """Where things stand: `place` has a cell's middle, `line` the points of a line's cubic curves, from the lower cell to the higher."""

    def __init__(self, place, line, width, height):
        self.place, self.line, self.width, self.height = place, line, width, height


def layout(book, graphviz=True):
    dot = shutil.which("dot") if graphviz and len(book.links) <= MOST_LINKS else None
    return dot and by_graphviz(book, dot) or layers(book)


def by_graphviz(book, dot):
    """Graphviz's layout; None if it fails."""
    rows = ["digraph { rankdir=LR; nodesep=0.12; ranksep=0.75; node [shape=box fixedsize=true]; edge [arrowhead=none];"]
    for i in range(book.n):
        rows.append(f'{i} [label="" width={cell_width(book, i) / 72:.3f} height={CELL_HEIGHT / 72:.3f}];')
    rank = ranks(book)
    for a, b in lines_of(book):
        rows.append(f"{a} -> {b};" if rank[a] <= rank[b] else f"{b} -> {a};")
    try:
        done = subprocess.run([dot, "-Tplain"], input="\n".join([*rows, "}"]), capture_output=True, text=True, timeout=SECONDS)
        return read_plain(done.stdout, book.n)
    except (OSError, subprocess.SubprocessError, ValueError, IndexError):
        return None


def read_plain(text, n):
    """Graphviz's plain output as a layout; None if a cell is missing."""
    place, line, width, height = {}, {}, 0, 0
    for row in text.splitlines():
        w = row.split()
        if w[0] == "graph":
            width, height = float(w[2]) * 72, float(w[3]) * 72
        elif w[0] == "node":
            place[int(w[1])] = (float(w[2]) * 72, height - float(w[3]) * 72)
        elif w[0] == "edge":
            f, t, count = int(w[1]), int(w[2]), int(w[3])
            points = [(float(w[4 + 2 * k]) * 72, height - float(w[5 + 2 * k]) * 72) for k in range(count)]
            line[min(f, t), max(f, t)] = points if f <= t else points[::-1]
    return Layout(place, line, width, height) if len(place) == n else None


def ranks(book):
    """How many links a cell is from the cell that most can be reached from (of such, the one with most links), or from the next such cell that
    none before leads to."""
    leads, entered, out = [[] for _ in range(book.n)], [0] * book.n, {}
    for f, _, t in book.links:
        leads[f].append(t)
        entered[t] += f != t
    for root in sorted(range(book.n), key=lambda i: (entered[i] > 0, -len(reach(leads, i)), -len(leads[i]), i)):
        if root in out:
            continue
        out[root], queue = 0, [root]
        for i in queue:
            for t in leads[i]:
                if t not in out:
                    out[t] = out[i] + 1
                    queue.append(t)
    return out


def reach(leads, i):
    seen, todo = {i}, [i]
    while todo:
        for t in leads[todo.pop()]:
            if t not in seen:
                seen.add(t)
                todo.append(t)
    return seen


def columns_of(book):
    """The cells in columns by rank, none taller than TALLEST, each sorted to stand near what it is linked with."""
    by_rank = {}
    for i, rank in ranks(book).items():
        by_rank.setdefault(rank, []).append(i)
    columns = [by_rank[rank][k:k + TALLEST] for rank in sorted(by_rank) for k in range(0, len(by_rank[rank]), TALLEST)]
    near = [[] for _ in range(book.n)]
    for f, _, t in book.links:
        near[f].append(t)
        near[t].append(f)
    at = {i: k for column in columns for k, i in enumerate(column)}
    for sweep in range(6):
        for column in columns if sweep % 2 == 0 else reversed(columns):
            column.sort(key=lambda i: (sum(at[x] for x in near[i]) / len(near[i]) if near[i] else at[i], i))
            at.update((i, k) for k, i in enumerate(column))
    return columns


def layers(book):
    """An own layout, for every book."""
    columns = columns_of(book)
    gap = CELL_HEIGHT + 10
    height, x, place = max(map(len, columns)) * gap, 8.0, {}
    for column in columns:
        wide = max(cell_width(book, i) for i in column)
        for k, i in enumerate(column):
            place[i] = (x + wide / 2, (height - len(column) * gap) / 2 + gap * (k + 0.5))
        x += wide + 70
    line = {(a, b): curve(book, a, b, place) for a, b in lines_of(book)}
    return Layout(place, line, x - 62, height + 6)


def curve(book, a, b, place):
    (xa, ya), (xb, yb) = place[a], place[b]
    wa, wb = cell_width(book, a) / 2, cell_width(book, b) / 2
    if a == b:
        return [(xa - 8, ya - 13), (xa - 22, ya - 36), (xa + 22, ya - 36), (xa + 8, ya - 13)]
    if abs(xa - xb) < 1:
        return [(xa + wa, ya), (xa + wa + 34, ya), (xb + wb + 34, yb), (xb + wb, yb)]
    s = 1 if xb > xa else -1
    p, q = (xa + s * wa, ya), (xb - s * wb, yb)
    bend = (q[0] - p[0]) / 2
    return [p, (p[0] + bend, p[1]), (q[0] - bend, q[1]), q]


def along(points):
    """Points on a path of cubic curves, each with its distance from the beginning."""
    last, gone, out = points[0], 0.0, []
    for k in range(0, len(points) - 3, 3):
        p = points[k:k + 4]
        for step in range(1, 65):
            t = step / 64
            c = ((1 - t) ** 3, 3 * t * (1 - t) ** 2, 3 * t * t * (1 - t), t ** 3)
            x, y = (sum(c[i] * p[i][d] for i in range(4)) for d in (0, 1))
            gone += ((x - last[0]) ** 2 + (y - last[1]) ** 2) ** 0.5
            last = (x, y)
            out.append((gone, x, y))
    return out


class Tags:
    """The numbers of labels, each on its line near the cell that the link starts from, and further on where it would cover another or a cell."""
    NEAREST, HEIGHT, DIGIT = 15, 10, 5.8

    def __init__(self, book, drawn):
        self.boxes = [(x, y, cell_width(book, i) + 2, CELL_HEIGHT) for i, (x, y) in drawn.place.items()]  # middle, width, height
        self.all = []

    def put(self, labels, points):
        text = ",".join(map(str, labels))
        wide, line = self.DIGIT * len(text) + 2, along(points)
        half = line[-1][0] / 2
        near = [(x, y) for gone, x, y in line if self.NEAREST <= gone <= half] or [next((x, y) for gone, x, y in line if gone >= half)]
        x, y = next((place for place in near if self.free(*place, wide)), near[0])
        self.boxes.append((x, y, wide, self.HEIGHT))
        self.all.append(f'<text x="{x:.0f}" y="{y + 3:.0f}">{text}</text>')

    def free(self, x, y, wide):
        return not any(2 * abs(x - a) < w + wide and 2 * abs(y - b) < h + self.HEIGHT for a, b, w, h in self.boxes)


def path_data(points):
    """Points as the data of an SVG path."""
    rest = [f"C{a[0]:.0f} {a[1]:.0f} {b[0]:.0f} {b[1]:.0f} {c[0]:.0f} {c[1]:.0f}" for a, b, c in zip(points[1::3], points[2::3], points[3::3])]
    return f"M{points[0][0]:.0f} {points[0][1]:.0f}" + "".join(rest)


def picture(book, side, speaker, alone, graphviz=True):
    """The book as SVG; `alone` are the cells that are marked, those without a counterpart."""
    drawn = layout(book, graphviz)
    crowded = len(drawn.line) > MOST_LINES
    lines, tags = [], Tags(book, drawn)
    for (a, b), (there, back) in sorted(lines_of(book).items()):
        points = drawn.line.get((a, b))
        if not points:
            continue
        arrows = (' marker-end="url(#arrow)"' if there else "") + (' marker-start="url(#arrow)"' if back else "")
        lines.append(f'<path id="l{side}-{a}-{b}" d="{path_data(points)}"{arrows}/>')
        for labels, way in ((there, points), (back, points[::-1])):
            if labels and not crowded:
                tags.put(labels, way)
    cells = [drawn_cell(book, side, i, drawn.place[i], speaker, i in alone) for i in range(book.n)]
    name = f"The {SIDE[side]} book as a graph of {book.n} cells and {len(book.links)} links"
    return (f'<svg class="graph{" crowded" if crowded else ""}" id="graph{side}" viewBox="-6 -6 {drawn.width + 12:.0f} {drawn.height + 12:.0f}" '
            f'role="img" aria-label="{name}"><g class=lines>{"".join(lines)}</g><g class=tags>{"".join(tags.all)}</g><g class=marks></g>'
            f'<g class=nodes>{"".join(cells)}</g><g class=words></g></svg>')


def drawn_cell(book, side, i, place, speaker, lone):
    w, number = cell_width(book, i), book.number[i]
    name = html.escape(cut(book.names.get(i, ""), LONGEST_NAME))
    return (f'<g id="n{side}-{i}"{" class=lone" * lone} transform="translate({place[0] - w / 2:.0f} {place[1] - CELL_HEIGHT / 2:.0f})">'
            f"<title>{html.escape(title_of(book, side, i, speaker))}</title>"
            f'<rect width="{w:.0f}" height="{CELL_HEIGHT}" rx="{3 if side == OLD else 13}"/>'
            f'<text class=num x="8" y="17">{number}</text><text class=name x="{12 + 7.7 * len(str(number)):.0f}" y="17">{name}</text>'
            f'<text class=rec x="{w - 7:.0f}" y="17">{sound(book, i)}</text></g>')


def title_of(book, side, i, speaker):
    name = f" “{book.names[i]}”" if i in book.names else ""
    links = "; ".join(f"{plain(speaker.label(label))} to {book.number[t]}" for f, label, t in book.links if f == i)
    heard = "silent" if book.silent(i) else f"recording {book.recordings[i]}"
    return f"{SIDE[side]} {book.number[i]}{name}, {heard}. " + (f"{links}." if links else "No links.")
