"""Questions in plain words. Equal words mean equal truth, but for words that stop short ("a further question", "things more").

A clause is a text, or (text, joiner, clauses). Labels stand between \\1 and \\2, to be shown as the place asks.
"""
import html
import re

from questions import ALWAYS, AND, DEPTH, DIFFER, HEARD, NODES, NOT, OR, SAME, TRUE, WAY, flat

LETTERS = "abcdefgh"
LONGEST_WHOLE = 24


def asked(p):
    """The question that is put in words: without a "not" in front, whose answers are then exchanged."""
    while NODES[p][0] == NOT:
        p = NODES[p][1]
    return p


class Speaker:
    DEEPEST = 5  # levels of tests that are put in words
    MOST = 8  # parts of an and (or) that are put in words

    def __init__(self, books):
        used = {label for book in books for _, label, _ in book.links}  # a label that only hidden links have is not spoken of
        old, new = ({k: name for k, name in book.label_names.items() if k in used} for book in books)
        names = {**new, **old}
        self.clash = sorted(k for k, name in new.items() if old.get(k, name) != name)
        often = list(names.values())
        unclear = lambda name: often.count(name) > 1 or re.search(r"label \d+\)?$", name)
        self.label_names = {k: f"{name} (label {k})" if unclear(name) else name for k, name in names.items()}

    def label(self, k):
        return "\1" + self.label_names.get(k, f"label {k}") + "\2"

    def labels(self, ks):
        """look up then look right 3 times"""
        runs = []
        for k in ks:
            if runs and runs[-1][0] == k:
                runs[-1][1] += 1
            else:
                runs.append([k, 1])
        times = lambda c: "" if c == 1 else " twice" if c == 2 else f" {c} times"
        return " then ".join(self.label(k) + times(c) for k, c in runs)

    def way(self, steps, level, ends_here=False):
        """The way in words, and the clause at its end (None if always true); a way whose end is listened to does not go on."""
        steps = list(steps) if ends_here else straight(steps)
        said, run = [], []
        for label, test in steps[:-1]:
            run.append(label)
            if test != ALWAYS:
                said.append(self.labels(run) + f" (to a cell where {flatten(self.clause(test, level + 1, here='that cell'))})")
                run = []
        said.append(self.labels(run + [steps[-1][0]]))
        last = steps[-1][1]
        return " then ".join(said), None if last == ALWAYS else self.clause(last, level + 1, here="that cell")

    def whole(self, steps, level):
        """A way of a comparison, with all that is asked on it."""
        way, last = self.way(steps, level, ends_here=True)
        return way + ("" if last is None else f" (to a cell where {flatten(last)})")

    def clause(self, p, level=0, yes=True, here="this cell"):
        """What p says of the cell where it is asked; its denial if not yes."""
        key, kind = NODES[p], NODES[p][0]
        if kind == NOT:
            return self.clause(key[1], level, not yes, here)
        if level > self.DEEPEST:
            return f"a further question, {DEPTH[p]} deep, is answered {'yes' if yes else 'no'}"
        if kind == TRUE:
            return "anything is so" if yes else "nothing is so"
        if p == HEARD:
            return f"{'a' if yes else 'no'} sound is heard"
        if kind in (AND, OR):
            return self.joined(p, kind, level, yes, here)
        if kind == WAY:
            return self.leads(key[1], level, yes)
        return self.compares(key, level, yes, here)

    def joined(self, p, kind, level, yes, here):
        items = [self.clause(c, level + 1, yes, here) for c in flat(p, kind)]
        if len(items) == 1:
            return items[0]
        if len(items) > self.MOST:
            items = items[:self.MOST - 1] + [f"{len(items) - self.MOST + 1} things more are so"]
        return ("", "and" if (kind == AND) == yes else "or", items)

    def leads(self, steps, level, yes):
        last = steps[-1][1]
        if not yes and len(steps) == 1 and NODES[last][0] == NOT:
            only = self.clause(NODES[last][1], level + 1, here="that cell")
            return put(f"{self.label(steps[0][0])} leads only to cells where ", only)
        way, last = self.way(steps, level)
        if last is None:
            return f"{way} leads {'somewhere' if yes else 'nowhere'}"
        return put(f"{way} {'can lead to a' if yes else 'leads to no'} cell where ", last)

    def compares(self, key, level, yes, here):
        kind = key[0]
        can = "can" if yes else "never"
        first, second = (key[1], key[2]) if key[1] else (key[2], key[1])
        like = "like" if kind == SAME else "different from"
        if not first:
            return f"{here} {can} sound{'s' * (not yes)} different from itself"
        one = self.whole(first, level)
        if not second:
            return f"{one} {can} sound{'s' * (not yes)} {like} {here}"
        if first == second:
            if kind == SAME:
                return f"{one} {'can lead to a' if yes else 'leads to no'} cell where a sound is heard"
            return f"{one}, gone two times, {can} sound{'s' * (not yes)} different"
        return f"{one}, and {self.whole(second, level)}, {can} sound {'the same' if kind == SAME else 'different'}"

    def question(self, p):
        """The question `asked(p)` as a clause to be answered with yes or no; a question mark is to follow."""
        p = asked(p)
        key, kind = NODES[p], NODES[p][0]
        if p == HEARD:
            return "Is a sound heard here"
        if kind == WAY:
            return self.way_question(key[1])
        if kind in (SAME, DIFFER) and (key[1] or key[2]):
            return self.comparison_question(kind, *key[1:])
        return put("Is it so that ", self.clause(p))

    def way_question(self, steps):
        steps = straight(steps)
        inner = NODES[steps[-1][1]]
        if inner[0] in (SAME, DIFFER) and (inner[1] or inner[2]) and inner[1] != inner[2]:
            way, _ = self.way([*steps[:-1], (steps[-1][0], ALWAYS)], 0)
            can = f"Can the two sound {'the same' if inner[0] == SAME else 'different'}"
            if inner[1] and inner[2]:
                first, second = (self.whole(one, 1) for one in inner[1:])
                return f"Go {way}. From there go {first}, and listen. Again from there go {second}, and listen. {can}"
            return f"Go {way}, and listen. Go on {self.whole(inner[1] or inner[2], 1)}, and listen. {can}"
        way, last = self.way(steps, 0)
        return f"Does {way} lead anywhere" if last is None else put(f"Can {way} lead to a cell where ", last)

    def comparison_question(self, kind, first, second):
        can = f"Can the two sound {'the same' if kind == SAME else 'different'}"
        if not first or not second:
            return f"Listen here. Then go {self.whole(first or second, 0)}, and listen. {can}"
        if first == second and kind == SAME:
            return f"Can {self.whole(first, 0)} lead to a cell where a sound is heard"
        if first == second:
            return f"Go {self.whole(first, 0)}, and listen; and once more from here. {can}"
        return f"Go {self.whole(first, 0)}, and listen. Then from here go {self.whole(second, 0)}, and listen. {can}"


def straight(steps):
    """A last test that is itself a way is the way's going on."""
    steps = list(steps)
    while steps and NODES[steps[-1][1]][0] == WAY:
        label, test = steps[-1]
        steps[-1:] = [(label, ALWAYS), *NODES[test][1]]
    return steps


def put(prefix, clause):
    """A clause with words before it."""
    return prefix + clause if isinstance(clause, str) else (prefix + clause[0], *clause[1:])


def flatten(clause, inner=False):
    """A clause as one text; what is joined inside another stands in brackets."""
    if isinstance(clause, str):
        return clause
    text, joiner, items = clause
    said = f", {joiner} ".join(f"({letter}) {flatten(item, True)}" for letter, item in zip(LETTERS, items))
    return f"{text}[{said}]" if inner else text + said


def plain(text):
    """A text without the marks of labels."""
    return text.replace("\1", "").replace("\2", "")


def long(name):
    """The class of a name that may be broken into lines; short ones are not, so that they are found at a glance."""
    return " long" if len(name) > LONGEST_WHOLE else ""


def marked(text):
    """A text for the page, its labels marked."""
    return re.sub("\1([^\2]*)\2", lambda found: f'<b class="lab{long(found[1])}">{found[1]}</b>', html.escape(text))


def clause_html(clause, end="?"):
    """A clause for the page, what it joins as a list."""
    if isinstance(clause, str):
        return marked(clause) + end
    text, joiner, items = clause
    ends = [f",&nbsp;{joiner}"] * (len(items) - 1) + [end]
    return f"{marked(text)}<ul>{''.join(f'<li>{clause_html(item, after)}</li>' for item, after in zip(items, ends))}</ul>"


def counted(k, what):
    """1 cell, 2 cells"""
    return f"{k:,} {what}{'s' * (k != 1)}"


def large(k):
    """A number as people read it; one of more than 15 digits only by its size."""
    if k < 10 ** 15:
        return f"{k:,}"
    return f"about 10 to the power of {(k.bit_length() - 1) * 30103 // 100000:,}"
