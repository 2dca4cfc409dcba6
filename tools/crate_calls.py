"""What the crates of crates.txt give out, each as its caller sees it: its calls, its laws and its definitions, and which clause reaches
which definition. For tools/proved.py."""

import re
from collections import OrderedDict, deque

from rattle_text import TOP, Clause, definitions_of, named_in, names_of, read_source


def exports_of(uses):
    """The names that lib.rt gives out, each with the module that it comes from."""
    names = {}

    def walk(path, tree):
        tree = tree.strip()
        found = re.match(r"([\w:]+)::\{(.*)\}$", tree)
        if found:
            depth, part = 0, ""
            for letter in found.group(2) + ",":
                depth += {"{": 1, "}": -1}.get(letter, 0)
                if letter == "," and depth == 0:
                    if part.strip():
                        walk(path + found.group(1).split("::"), part)
                    part = ""
                else:
                    part += letter
            return
        words = tree.split()[0].split("::")
        names[tree.split()[-1].split("::")[-1]] = [w for w in path + words[:-1] if w not in ("crate", "self")]

    for use in uses:
        walk([], use.split("use", 1)[1])
    return names


class Entry:
    """A public call, or the rule of a type, as the page shows it."""

    def __init__(self, title, path, call, clauses, note=""):
        self.title, self.path, self.call, self.clauses, self.note = title, path, call, clauses, note


class Crate:
    def __init__(self, name):
        self.name = name
        self.folder = TOP / "crates" / name
        self.root = self.folder / "src" / "lib.rt"
        self.definitions = definitions_of(name)
        self.calls, self.laws = [], []
        self.head = ""
        if self.root.is_file():
            self.read()

    def read(self):
        self.sources = OrderedDict()
        self.load([], self.root)
        root = self.sources[()][1]
        self.head = " ".join(root.head)
        exports = exports_of(root.uses)
        traits = {}
        for path, source in self.sources.values():
            for block in source.blocks:
                found = re.match(r"pub trait (\w+)", block.header)
                if found and found.group(1) in exports:
                    traits[found.group(1)] = block
        CRATE_TRAITS.update({name: block for name, block in traits.items()})
        for module, (path, source) in self.sources.items():
            for call in source.calls:
                if call.signature.startswith("pub ") and self.is_out(call.name, module, exports):
                    entry = Entry(call.name, path, call, call.clauses)
                    (self.laws if call.is_law else self.calls).append(entry)
            for block in source.blocks:
                self.read_block(block, path, module, exports)

    def load(self, module, path):
        source = read_source(path)
        self.sources[tuple(module)] = (path.relative_to(TOP), source)
        below = path.parent / path.stem if module else path.parent
        for name in source.modules:
            self.load(module + [name], below / f"{name}.rt")

    def is_out(self, name, module, exports):
        home = exports.get(name)
        return home is not None and list(module[: len(home)]) == home

    def read_block(self, block, path, module, exports):
        trait = re.match(r"pub trait (\w+)", block.header)
        if trait:
            if trait.group(1) in exports:
                for call in block.calls:
                    self.calls.append(Entry(f"{trait.group(1)}::{call.name}", path, call, call.clauses))
            return
        header = re.sub(r"^(unsafe )?impl", "", block.header).strip()
        if header.startswith("<"):
            depth = 0
            for at, letter in enumerate(header):
                depth += {"<": 1, ">": -1}.get(letter, 0)
                if depth == 0:
                    header = header[at + 1 :].strip()
                    break
        of, kind = header.split(" for ") if " for " in header else ("", header)
        name = re.match(r"\w+", kind.strip("& ")).group()
        if not self.is_out(name, module, exports) and name not in exports:
            return
        if not of:
            for call in block.calls:
                if call.signature.startswith("pub fn") or call.signature.startswith("pub const fn"):
                    self.calls.append(Entry(f"{name}::{call.name}", path, call, call.clauses))
        elif of == "Model":
            if "invariant" in block.ghosts:
                rule = Clause("", "invariant", block.ghosts["invariant"][0], (False, []))
                self.calls.append(Entry(f"every {name}", path, None, [rule]))
        else:
            self.read_impl(block, path, of, name)

    def read_impl(self, block, path, of, name):
        """What an impl of a trait says beyond the trait."""
        word = re.match(r"\w+", of).group()
        if "from_gives" in block.ghosts:
            if word == "From" and of.startswith(("From<AllocError", "From<AllocFailed", "From<Memory")):
                return
            rule = Clause("", "from_gives", block.ghosts["from_gives"][0], (False, []))
            self.calls.append(Entry(f"{name}::from", path, None, [rule], f"of `{of}`"))
            return
        base = CRATE_TRAITS.get(word)
        inherited = {c.name: {k.name for k in c.clauses} for c in base.calls} if base else {}
        for call in block.calls:
            own = [c for c in call.clauses if c.name not in inherited.get(call.name, set())]
            own = [c for c in own if not (base and c.kind == "requires")]
            if own:
                note = f"beside the clauses of `{word}::{call.name}`" if base else f"of `{of}`"
                self.calls.append(Entry(f"{name}::{call.name}", path, call, own, note))


CRATE_TRAITS = {}


def crates_in_order():
    """The crates of crates.txt, each after those that it stands on, in the order of the file."""
    lines = OrderedDict()
    for line in (TOP / "crates.txt").read_text().splitlines():
        line = line.split("#")[0].strip()
        if line:
            name, below = line.split(":")
            lines[name.split()[0]] = below.split()
    done = []

    def visit(name):
        if name in lines and name not in done:
            for other in lines[name]:
                visit(other)
            done.append(name)

    for name in lines:
        visit(name)
    return [Crate(name) for name in done]


# ---- which clause reaches which definition


def reach(crates):
    """For each definition the clauses that name it, and the definition through which others reach it."""
    known = {}
    for crate in crates:
        known.update(crate.definitions)
    direct = OrderedDict()
    for crate in crates:
        for entry in crate.calls + crate.laws:
            for clause, keys in names_of(entry, known):
                for key in keys:
                    place = f"{crate.name} `{entry.title}`" + (f": `{clause.name}`" if clause.name else "")
                    direct.setdefault(key, []).append(place)
    through = {key: None for key in direct}
    waiting = deque(direct)
    while waiting:
        key = waiting.popleft()
        one = known[key]
        for other in named_in(one.text, one.crate, one.file, one.imports, known):
            if other not in through:
                through[other] = key
                waiting.append(other)
    return known, direct, through
