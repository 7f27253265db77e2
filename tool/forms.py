"""The words of the two forms of comparing: two-sided, where cells are matched, and one-way, where the new book may offer more."""


class TwoSided:
    matched = "matched"
    alone = "without a partner"
    alone_new = "New cells without an old partner"
    alone_title = "Old cells without a partner"
    partners_title = "Partners"
    partners_head = "Partners (old = new):"
    nobody = "No old cell has a partner."
    differ_head = "Partners with other names; listen to these first:"
    differ_note = ("has a partner with another name", "have partners with other names")  # of one, of more
    joiner = "="
    order = "Partners side by side"
    yes_means = "Whatever can be done from a cell can be done from its partner, with the same and different sounds in the same places."
    no_means = "Somebody who uses {} would not find a cell that does the same."
    places = ("The fewest places of the new book in which the differences of all old cells without a partner come together. "
              "Mend these first, then compare again: one place can hide another.")
    partners = ("Cells on one line do the same: no question about ways and sameness of recordings, within the bound and however long, "
                "is answered differently. Which words they say must be heard.")
    reading = ("<div><h3>Matched, parted, partner</h3><p>Two cells are <b>matched</b>, and are partners, if whatever can be done from the one "
               "can be done from the other, link for link, and wherever one book says a recording twice, or two different ones, so does the "
               "other. All other pairs are <b>parted</b>, and for each there is a question with different answers.</p></div>")

    @staticmethod
    def verdict(missing, n):
        """The first line of every answer."""
        if not missing:
            return f"Yes. Every one of the {n} old cells has a partner in the new book."
        return f"No. {missing} of {n} old cells {'has' if missing == 1 else 'have'} no partner in the new book."

    @staticmethod
    def listed(old, new):
        """One or more old cells with their new ones, in a line."""
        return f"{', '.join(old)} = {', '.join(new)}"


class OneWay:
    matched = "covered"
    alone = "covered by no new cell"
    alone_new = "New cells that cover no old one"
    alone_title = "Old cells that are not covered"
    partners_title = "Covered cells"
    partners_head = "Covered (old by new):"
    nobody = "No old cell is covered."
    differ_head = "Covered only by cells with other names; listen to these first:"
    differ_note = ("is covered only by cells with other names", "are covered only by cells with other names")
    joiner = "by"
    order = "Covered side by side"
    yes_means = "Whatever can be done from an old cell can be done from the new cell that covers it; the new one may offer more."
    no_means = "Somebody who uses {} would not find a cell that does all that it does."
    places = ("The fewest places of the new book in which what the old cells lack comes together. Mend these first, then compare again: "
              "one place can hide another.")
    partners = ("The old cells on the left are covered by each of the new cells on the right, the likest first: all that can be done from the "
                "old one can be done from the new one, which may offer more. Which words they say must be heard.")
    reading = ("<div><h3>Covered, parted</h3><p>This page compares one-way: the new book may offer more. A new cell <b>covers</b> an old one if "
               "whatever can be done from the old cell can be done from the new one, link for link, and wherever the old book says a recording "
               "twice, or two different ones, so does the new one. All other pairs are <b>parted</b>, and for each there is a question, "
               "without “not”, that is answered yes at the old cell and no at the new one.</p></div>")

    @staticmethod
    def verdict(missing, n):
        """The first line of every answer."""
        if not missing:
            return f"Yes. Every one of the {n} old cells is covered by a cell of the new book."
        return f"No. {missing} of {n} old cells {'is' if missing == 1 else 'are'} covered by no cell of the new book."

    @staticmethod
    def listed(old, new):
        """One or more old cells with the new ones that cover them, in a line."""
        return f"{', '.join(old)} {'is' if len(old) == 1 else 'are'} covered by {', '.join(new)}"


def form_of(one_way):
    return OneWay if one_way else TwoSided
