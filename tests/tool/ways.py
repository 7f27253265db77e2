"""The ways to practise that a page tells, held against links and recordings."""


class Ways:
    """Checks the ways of a page's data. Cells there are counted among those that are not hidden; here by their numbers in the books."""

    def __init__(self, tally, what, books, data):
        self.tally, self.what, self.books, self.data, self.seen = tally, what, books, data, set()
        self.numbers = [side["num"] for side in data["books"]]

    def check(self, good, *more):
        return self.tally.check(good, f"{self.what}: ways to practise", *more)

    def cell(self, side, i):
        return self.numbers[side][i]

    def walk(self, side, start, labels, cells):
        """The cells are those of a way from the start by the labels; gives its end."""
        here = start
        self.check(len(labels) >= len(cells), "more cells than labels", labels, cells)
        for label, cell in zip(labels, cells):
            self.check(cell in self.books[side].goes(here, label), f"side {side}: no link from {here} by {label} to {cell}")
            here = cell
        return here

    def nowhere(self, side, start, labels, cells):
        """The labels cannot all be gone from the start, and after these cells the next one leads nowhere."""
        last = self.walk(side, start, labels[:len(cells)], cells)
        self.check(len(cells) < len(labels) and not self.books[side].goes(last, labels[len(cells)]), f"side {side}: {labels} leads on from {last}")
        here = {start}
        for label in labels:
            here = {y for x in here for y in self.books[side].goes(x, label)}
        self.check(not here, f"side {side}: {labels} can be gone from {start}")

    def pair(self, i, j, story):
        """The story is of this pair, whichever side leads."""
        told = self.data["stories"][story]
        start = (told["x"], told["y"]) if told["lead"] == 0 else (told["y"], told["x"])
        self.check(start == (i, j), "another pair's story", (i, j), told)
        self.story(story)

    def story(self, number):
        if number in self.seen:
            return
        self.seen.add(number)
        told = self.data["stories"][number]
        lead, other = told["lead"], 1 - told["lead"]
        at = {lead: self.cell(lead, told["x"]), other: self.cell(other, told["y"])}
        if told["kind"] == "heard":
            heard = [self.books[side].recordings[at[side]] != 0 for side in (lead, other)]
            self.check(heard == [True, False] and not told["w"], "a sound is heard at the one cell and not at the other", told)
            return
        ways = [("w", "wp")] + ([("v", "vp")] if told["kind"] != "way" else [])
        cells = lambda side, t, key: [self.cell(side, c) for c in t[key]]
        ends = [self.walk(lead, at[lead], told[labels], cells(lead, told, key)) for labels, key in ways]
        for (labels, key) in ways:
            self.check(len(told[key]) == len(told[labels]), "the leader does not go the whole way", told)
        if len(ways) == 2:
            self.check(self.books[lead].sound(*ends) is (told["kind"] == "same"), f"the leader's ends are not {told['kind']}", told)
        if "stuck" in told:
            self.nowhere(other, at[other], told["v" if told.get("which") else "w"], [self.cell(other, c) for c in told["stuck"]])
            return
        self.check(told["ways"], "no way of the other book is told", told)
        self.counted(told, other, at[other], [told[labels] for labels, _ in ways])
        for way in told["ways"]:
            self.follower(told, other, at[other], ways, way)

    def counted(self, told, side, start, ways):
        """How many further ways, or pairs of ways, there are with the same labels."""
        count = 1
        for labels in ways:
            here = {start: 1}
            for label in labels:
                after = {}
                for x, k in here.items():
                    for y in self.books[side].goes(x, label):
                        after[y] = after.get(y, 0) + k
                here = after
            count *= sum(here.values())
        more = count - len(told["ways"])
        said = str(told["more"]).replace(",", "")
        self.check(said == str(more) if more < 10 ** 15 else said.startswith("about 10 to the power of"), "further ways", more, told)

    def follower(self, told, side, start, ways, way):
        """A way of the other book with the same labels: it fails by its sounds, or at a cell that another story tells of."""
        cells = lambda key: [self.cell(side, c) for c in way[key]]
        ends = [self.walk(side, start, told[labels], cells(key)) for labels, key in ways]
        for (labels, key) in ways:
            self.check(len(way[key]) == len(told[labels]), "the other book does not go the whole way", told, way)
        if "sub" not in way:
            sound = self.books[side].sound(*ends) if len(ways) == 2 else None
            self.check(len(ways) == 2 and sound is not (told["kind"] == "same"), "the ends sound as the leader's do", told, way)
            self.check(way["end"] == {None: "silent", True: "same", False: "different"}[sound], "the ends sound otherwise", told, way)
            return
        which, k = way["at"]
        key = ways[which][1]
        sub = self.data["stories"][way["sub"]]
        meant = {told["lead"]: told[key][k], side: way[key][k]}
        self.check(meant == {sub["lead"]: sub["x"], 1 - sub["lead"]: sub["y"]}, "the next story starts elsewhere", told, way, sub)
        self.story(way["sub"])
