#!/usr/bin/env python3
"""Prints the files of definitions that have to be believed, a line each, definitions before their users: those that the operations' contracts
reach, and those that the demands' statements reach beyond these. `closure.py names` prints the definitions of each file, too, and what else is there.

An operation is a public function that asks nothing of its caller (it has no `requires`), of the crate for C, of a crate that this one calls, of the
opened book or of the listing's text. From its `ensures` the names are followed to their definitions, and from these on, through the `use` lines of
the files in specs/. Proofs are not followed, and of a theorem in a file Demands only what it states. The kit's library is not listed, nor are
the types that the code declares."""
import re
import sys
from pathlib import Path

ROOT = Path(__file__).resolve().parents[2]
FOR_C = "capi"
OTHERS = ["open_book", "listing_text"]

NAME = r"(?!(?:=|→|↦|λ|let|in)\s)[^\s:(){}\[\],;.]+"
USE = re.compile(r"^(?:ghost )?use Rattle\.(\w+)\.(specs|proofs)\.([\w.-]+?)(?:\.\{(.*?)\}| as (\w+))?;?$", re.S)
FUNCTION = re.compile(r"^ *pub (?:extern \"C\" )?fn (\w+)(.*?)^ *\{$", re.M | re.S)
TYPE = re.compile(rf"(?:pub )?(?P<kind>record|data) (?P<name>{NAME})")
SIGNATURE = re.compile(rf"(?P<kept>(?:abbrev|unfoldable) )?(?:pub )?(?P<names>{NAME}(?: {NAME})*) :(?: |$)")
RULESET = re.compile(r"(?:pub )?ruleset ")


class Declaration:
    """A name and its text: of a definition all of it, of a law what it states, each with the parameters of the modules around it."""

    def __init__(self, name, kind, public, around):
        self.name, self.kind, self.public, self.text = name, kind, public, list(around)

    def is_law(self):
        return self.kind == "law"


def words(text):
    return re.split(r"[\s(){}\[\],;]+", text)


def imports(lines):
    """What a file's use lines bring in: a name's crate, file and name there. A file brought in under a name counts as a name with no name in it."""
    names = {}
    for use in filter(None, map(USE.match, lines)):
        crate, folder, file, listed, alias = use.groups()
        if file.startswith("declared") or not (ROOT / "crates" / crate).is_dir():
            continue
        file = file if folder == "specs" else f"{folder}/{file}"
        if alias:
            names[alias] = (crate, file, None)
        for item in filter(None, re.split(r",\s*", listed or "")):
            name, _, other = item.partition(" as ")
            names[other or name] = (crate, file, name)
    return names


def indent(line):
    return len(line) - len(line.lstrip(" "))


class File:
    def __init__(self, crate, name, folder="specs"):
        self.crate, self.name = crate, name
        self.path = ROOT / "crates" / crate / folder / f"{name}.antt"
        lines = [re.sub(r"(^|\s)--(\s.*|$)", "", line).rstrip() for line in self.path.read_text().splitlines()]
        self.imports = imports(lines)
        self.declarations = []
        self.declared = {}  # by name; a constructor's is that of its type
        self.read([line for line in lines if line and not line.startswith("use ")])

    def add(self, name, kind, public, around):
        made = Declaration(name, kind, public, around)
        self.declarations.append(made)
        self.declared[name] = made
        return made

    def read(self, lines):
        modules = []  # the modules around, with how far their lines are indented
        mutual = None  # the mutual block around, and whether it is one of definitions
        now = None  # what is being declared, with how far it is indented, and whether its text goes on
        depth, open_ended = 0, False
        header = None  # the parameters of a module that are being read
        for line in lines:
            at, line = indent(line), line.strip()
            if header is None and now and at > depth:
                if open_ended:
                    self.extend(now, line)
                continue
            if header is None and line.startswith("module _"):
                now, mutual, header, depth = None, None, "", at
            if header is not None:
                header = f"{header} {line}"
                if header.endswith("where"):
                    modules = [(d, text) for d, text in modules if d < depth] + [(depth, header)]
                    header = None
                continue
            modules = [(d, text) for d, text in modules if d < at]
            mutual = mutual if mutual and at > mutual[0] else None
            around = [text for _, text in modules]
            public = line.startswith("pub ") or " pub " in line.partition(":")[0]
            made, signature = TYPE.match(line), SIGNATURE.match(line)
            if line in ("mutual", "unfoldable mutual"):
                now, mutual = None, (at, line.startswith("unfoldable"))
            elif made:
                now, depth, open_ended = self.add(made["name"], made["kind"], public, around), at, True
                self.extend(now, line)
            elif signature and not line.startswith("unfolding "):
                kind = "value" if signature["kept"] or mutual and mutual[1] else "law"
                now, depth, open_ended = self.add(signature["names"], kind, public, around), at, True
                self.extend(now, line)
            elif now and RULESET.match(line):
                now = None
            elif now:  # a clause of a definition, or a law's proof
                open_ended = open_ended and not now.is_law()
                if open_ended:
                    self.extend(now, line)

    def extend(self, declaration, line):
        declaration.text.append(line)
        if declaration.kind == "data":
            found = SIGNATURE.match(line.partition("where")[2].strip() or line)
            for name in found["names"].split(" ") if found else []:
                self.declared.setdefault(name, declaration)

    def laws(self):
        return [declaration.name for declaration in self.declarations if declaration.is_law()]


class Closure:
    def __init__(self):
        self.files = {}
        self.reached = {}  # a file's crate and name: its definitions that are reached
        self.uses = {}  # and the files that these use

    def file(self, crate, name):
        if (crate, name) not in self.files:
            self.files[crate, name] = File(crate, name)
        return self.files[crate, name]

    def follow(self, text, names, own=None):
        """Follows the names of a text, by what is brought in and what the file itself declares. Gives the files where they are declared."""
        found = set()
        for word in set(words(text)):
            # a part of what a name gives is written with a dot, as is a name of a file that is brought in under a name
            name, _, inner = word.partition(".") if not word.startswith(".") else ("", "", "")
            if own and name in own.declared:
                self.reach(own, own.declared[name])
            elif name in names:
                crate, file, meant = names[name]
                if file.startswith("proofs/"):
                    sys.exit(f"closure: {name} is a definition of crates/{crate}/{file}, which no promise may rest on")
                target = self.file(crate, file)
                meant = meant or inner
                if meant not in target.declared:
                    sys.exit(f"closure: {target.path.relative_to(ROOT)} declares no {meant}")
                found.add((crate, file))
                self.reach(target, target.declared[meant])
        return found

    def reach(self, file, declaration):
        key = file.crate, file.name
        names = self.reached.setdefault(key, {})
        if declaration.name in names:
            return
        names[declaration.name] = declaration
        self.uses.setdefault(key, set()).update(self.follow("\n".join(declaration.text), file.imports, file) - {key})

    def ordered(self):
        """The files, each after those that it uses; otherwise by the crates' order in crates.txt and by name."""
        crates = [line.partition(":")[0].partition(" ")[0] for line in (ROOT / "crates.txt").read_text().splitlines()]
        done = []

        def visit(key, under):
            if key not in done and key not in under:
                for other in sorted(self.uses.get(key, ()), key=lambda k: (crates.index(k[0]), k[1])):
                    visit(other, under | {key})
                done.append(key)

        for key in sorted(self.reached, key=lambda k: (crates.index(k[0]), k[1])):
            visit(key, frozenset())
        return done


def source(crate):
    return (ROOT / "crates" / crate / "src" / "lib.rt").read_text()


def operations():
    """The operations: a crate, a function and its contract."""
    called = re.findall(r"^ +(\w+)::\w+\(", source(FOR_C), re.M)
    for crate in dict.fromkeys([FOR_C, *called, *OTHERS]):
        for name, head in FUNCTION.findall(source(crate)):
            if "requires {" not in head:
                yield crate, name, head.partition("ensures {")[2]


def closure():
    """What the contracts reach, and what the contracts and the demands reach."""
    contracts, all_of = Closure(), Closure()
    for crate, name, contract in operations():
        names = imports(source(crate).splitlines())
        for to in contracts, all_of:
            to.follow(contract, names)
    for path in sorted(ROOT.glob("crates/*/specs/Demands.antt")):
        file = all_of.file(path.parts[-3], "Demands")
        for law in file.declarations:
            if law.public and law.is_law():
                all_of.follow("\n".join(law.text), file.imports, file)
    for key in [key for key in all_of.reached if key[1] == "Demands"]:
        all_of.uses.pop(key)
        all_of.reached.pop(key)
    return contracts, all_of


def path_of(key):
    return f"crates/{key[0]}/specs/{key[1]}"


def main():
    contracts, all_of = closure()
    for key in all_of.ordered():
        beyond = "" if key in contracts.reached else " (by the demands alone)"
        print(path_of(key) + beyond)
        if sys.argv[1:] == ["names"]:
            file, reached = all_of.file(*key), all_of.reached[key]
            print("    reached: " + " ".join(sorted(reached)))
            for text, others in [("not reached", [d.name for d in file.declarations if not d.is_law() and d.name not in reached]), ("laws", file.laws())]:
                if others:
                    print(f"    {text}: " + " ".join(others))


if __name__ == "__main__":
    main()
