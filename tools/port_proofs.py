#!/usr/bin/env python3
"""Turns each Proof.antt that answers the borrow checker's goals through `Tie` into Invariants.antt and Answers.antt.

usage: python3 tools/port_proofs.py NAMES CRATE..      at the top of the repository

NAMES is a folder with CRATE/names.json, as `rattle check --generated NAMES/CRATE --old-names` writes it: of each goal, step and loop its old name and its new one.
What it can't turn it leaves, and says so: a proof that walks the code by hand has no Tie.
"""

import glob
import json
import os
import re
import sys

TOKEN = re.compile(r"[A-Za-zΑ-Ωα-ωℕ_][\w'⁰¹²³₀-₉′-]*|κs|μ[\w-]*")
OBVIOUS = {"search rules", "omega arith"}


def norm(s):
    s = s.replace("_", "-").lower()
    return s[: -len("-lem")] if s.endswith("-lem") else s


def blocks(text):
    """The text before the first declaration, and the declarations: a name and its lines."""
    head, out, now = [], [], None
    pending = []
    for line in text.split("\n"):
        m = re.match(r"(?:abbrev |pub )*([^\s:]+) :(?: |$)", line)
        top = line[:1] not in (" ", "") and not line.startswith("--") and not line.startswith("use ") and not line.startswith("module ")
        if m and top and not (now and line.startswith(now[0] + " ")):
            now = [m.group(1), pending + [line]]
            pending = []
            out.append(now)
        elif line.startswith("--") or line.startswith("use "):
            if now is None:
                head.append(line)
            else:
                pending.append(line)
        elif line.startswith("module "):
            now = ["module", pending + [line]]
            pending = []
            out.append(now)
        elif now is None:
            head.append(line)
        elif line == "":
            pass
        else:
            now[1].append(line)
    return head, out


class Fn:
    def __init__(self, crate, path, names):
        self.crate, self.path = crate, path
        key = f"Rattle-{crate}-proofs.{'.'.join(path)}.Lts"
        self.d = names.get(key)
        if self.d is None:
            raise KeyError(key)
        self.places = {p[0]: p for p in self.d["places"]}
        self.needs = {}
        for i, (old, new) in enumerate(self.d["needs"]):
            self.needs[norm(old)] = (new, self.d["asked_at"][i][0] if i < len(self.d["asked_at"]) else None)

    def goal(self, old, name):
        """The new name of a goal, and the place where it is asked."""
        for key in (norm(old), re.sub(r"^(overflow|nonzero)-", "", norm(old)), norm(name)):
            if key in self.needs:
                return self.needs[key]
        return None

    def step(self, place, ups, old):
        """The new name of a step that a goal's record has under `before` so many times."""
        at = place
        for _ in range(ups):
            at = self.places[at][1] if at in self.places else None
        if at in self.places and norm(self.places[at][2][0]) == norm(old):
            return self.places[at][2][1]
        at = place
        while at in self.places:
            if norm(self.places[at][2][0]) == norm(old):
                return self.places[at][2][1]
            at = self.places[at][1]
        return None


def paths(fn, place, body, left):
    """The steps of a body that speaks of the goal's record `c`, or of the record of a place before it by a name."""
    while True:
        m = re.search(r"\n? *let ([\w']+) = c((?:\.before)+) in(?= |\n)", body)
        if not m:
            break
        ups, rest = m.group(2), body[: m.start()] + body[m.end():]
        body = re.sub(r"(?<![\w.'-])%s(?=\.)" % re.escape(m.group(1)), "c" + ups, rest)
        body = re.sub(r"let ([\w']+) = c((?:\.before)+)((?:\.before)+) in", r"let \1 = c\2\3 in", body)

    def turn(m):
        ups, step = m.group(1).count(".before"), m.group(2)
        if step in ("args", "requires", "ranges", "well_formed"):
            return f"c.{step}"
        new = fn.step(place, ups, step)
        if new is None:
            left.append(f"no step {m.group(0)}")
            return m.group(0)
        return f"c.{new}"

    return re.sub(r"\bc((?:\.before)*)\.(?!before\b)([\w'-]+)", turn, body)


def invariant(fn, name, lines, left):
    """A definition over the loop's variables in order as one over the record of them."""
    text = "\n".join(lines)
    m = re.search(r"^%s ([^=]*?)=(.*)\Z" % re.escape(name), text, re.S | re.M)
    kind, loop = re.match(r"(invariant|decreases|Inv|μ)-(.*)", name).groups()
    kind = {"Inv": "invariant", "μ": "decreases"}.get(kind, kind)
    for i, ((old, new), variables) in enumerate(fn.d["loops"]):
        if norm(old) == norm(loop):
            break
    else:
        left.append(f"no loop {loop}")
        return None
    changed = fn.d["changed"][i]
    params = m.group(1).split()
    fields = [("l.initial." if c else "l.") + v for v, c in zip(variables, changed)] + ["l." + v for v, c in zip(variables, changed) if c]
    if len(params) != len(fields):
        left.append(f"{name}: {len(params)} parameters for {len(fields)} variables")
        return None
    to = {p: f for p, f in zip(params, fields) if p != "_"}
    body = m.group(2)
    body = re.sub(r"(?<![\w.'])[A-Za-zΑ-Ωα-ω_][\w'₀-₉-]*", lambda k: to.get(k.group(0), k.group(0)), body)
    return f"abbrev pub {kind}-{new} : goal.{kind}-{new}\n{kind}-{new} l ={body}"


def imports(head, text, fn, goal):
    """The `use` lines that the text needs."""
    out = []
    words = set(re.findall(r"[^\s(){}\[\];,.\"]+", text))
    for line in head:
        if not line.startswith("use ") or re.search(r"\.(Statement|Tie)(\.| as )", line):
            continue
        m = re.match(r"use ([^{]*)\.\{(.*)\}$", line)
        if m:
            names = [n.strip() for n in m.group(2).split(",")]
            keep = [n for n in names if (n.split(" as ")[-1] in words) or (n.startswith("◌") and n.strip("◌") in words) or any(ch in n for ch in "{") or (n.count("◌") and all(p in words for p in n.split("◌") if p))]
            if keep:
                out.append(f"use {m.group(1)}.{{{', '.join(keep)}}}")
        else:
            last = line.split(" as ")[-1].split(".")[-1].strip()
            if last in words or f" as " in line and line.split(" as ")[-1] in text:
                out.append(line)
    out.append(f"use Rattle.{fn.crate}.proofs.{'.'.join(fn.path)}.{goal} as goal")
    return out


def turn(crate, file, names):
    text = open(file, encoding="utf-8").read()
    if " as tie" not in text:
        return ["walks by hand"]
    folder = os.path.dirname(file)
    path = os.path.relpath(folder, f"crates/{crate}/proofs").split("/")
    fn = Fn(crate, path, names)
    left = []
    head, decls = blocks(text)
    comment = [l for l in head if l.startswith("--")]
    loops, answers = [], []
    renamed = {}
    for name, lines in decls:
        m = re.search(r": tie\.Need-([\w'-]+)", "\n".join(lines))
        if m and fn.goal(m.group(1), name):
            renamed[name] = fn.goal(m.group(1), name)[0]
    for name, lines in decls:
        sig = "\n".join(lines)
        if re.search(r"^(pub )?[\w+-]+[_-]spec : ", sig, re.M):
            continue
        if re.search(r": tie\.(invariant|decreases|InvT|MeasureT)-", sig):
            it = invariant(fn, name, [l for l in lines if not l.startswith("--")], left)
            if it:
                loops.append("\n".join([l for l in lines if l.startswith("--")] + [it]))
            continue
        m = re.search(r": tie\.Need-([\w'-]+)([^\n]*)", sig)
        if not m:
            answers.append(sig)
            continue
        if not fn.goal(m.group(1), name):
            left.append(f"no goal {m.group(1)}, which was answered:{sig.partition(' =')[2]}")
            continue
        new, place = fn.goal(m.group(1), name)
        notes = [l for l in lines if l.startswith("--")]
        rest = [l for l in lines if not l.startswith("--")]
        unfolds = [l for l in rest if l.startswith("unfolding ")]
        body = "\n".join(l for l in rest[1:] if not l.startswith("unfolding "))
        b = re.match(r"%s c( κs| _)?(?: κs)? =" % re.escape(name), body)
        if not b:
            left.append(f"{name}: another form: {body[:60]}")
            answers.append(sig)
            continue
        body = body[b.end():]
        if body.strip() in OBVIOUS and not unfolds:
            continue
        body = paths(fn, place, body, left)
        for o, n in renamed.items():
            body = re.sub(r"(?<![\w.'-])%s(?![\w'-])" % re.escape(o), n, body)
        answers.append("\n".join(notes + [f"pub {new} : goal.{new}", *unfolds, f"{new} c ={body}"]))
    made = []
    if loops:
        t = "\n\n".join(loops)
        head_ = ([] if answers else comment) + imports(head, t, fn, "Given")
        made.append(("Invariants.antt", "\n".join(head_) + "\n\n" + t + "\n"))
    if answers:
        t = "\n\n".join(answers)
        made.append(("Answers.antt", "\n".join(comment + imports(head, t, fn, "Goals")) + "\n\n" + t + "\n"))
    for n, t in made:
        with open(os.path.join(folder, n), "w", encoding="utf-8") as it:
            it.write(t)
    os.remove(file)
    if not made:
        os.rmdir(folder)
    return left


def main(argv):
    for crate in argv[1:]:
        with open(f"{argv[0]}/{crate}/names.json") as it:
            names = json.load(it)
        for file in sorted(glob.glob(f"crates/{crate}/proofs/**/Proof.antt", recursive=True)):
            try:
                left = turn(crate, file, names)
            except KeyError as e:
                left = [f"no names of {e}"]
            for l in left:
                print(f"{file}: {l}")


main(sys.argv[1:])
