"""Reads Rattle: the calls of a source with their clauses and comments, and the definitions of specs/. For tools/proved.py."""

import re
from collections import OrderedDict
from pathlib import Path

TOP = Path(__file__).resolve().parent.parent
NAME = re.compile(r"[A-Za-z_][A-Za-z0-9_'-]*")
# a name, with the file's alias before it, if there is one
QUALIFIED = re.compile(r"(?:\b([A-Za-z_][A-Za-z0-9_'-]*)\.)?([A-Za-z_][A-Za-z0-9_'-]*)")
IMPORT = re.compile(r"use\s+Rattle\.([A-Za-z0-9_]+)\.specs\.([A-Za-z0-9_.]+?)(?:\.\{(.*)\}|\s+as\s+(\w+))\s*;?\s*$", re.S)


# ---- reading Rattle


def end_of_string(text, at):
    """The place after the string that begins at `at`."""
    at += 1
    while text[at] != '"':
        at += 2 if text[at] == "\\" else 1
    return at + 1


CHARACTER = re.compile(r"b?'(\\[^']+|\\'|[^'\\])'")


def step(text, at, code):
    """The place after the comment, string, character or single letter at `at`."""
    if text.startswith("//", at):
        end = text.find("\n", at)
        return len(text) if end < 0 else end
    if text[at] == '"':
        return end_of_string(text, at)
    if code and text[at] in "b'":
        found = CHARACTER.match(text, at)
        if found:
            return found.end()
    return at + 1


def after_block(text, at, code=True):
    """The place after the bracket that closes the one at `at`."""
    depth = 0
    while True:
        letter = text[at]
        if letter in "{([":
            depth += 1
        elif letter in "})]":
            depth -= 1
            if depth == 0:
                return at + 1
        at = step(text, at, code)


def after_semicolon(text, at):
    """The place after the next semicolon that stands in no bracket."""
    while text[at] != ";":
        at = after_block(text, at) if text[at] in "{([" else step(text, at, True)
    return at + 1


class Clause:
    def __init__(self, kind, name, text, heads):
        self.kind, self.name, self.text, self.heads = kind, name, text, heads


class Call:
    """A function with its contract."""

    def __init__(self, words, signature, doc, clauses, is_law, imports):
        self.words, self.signature, self.doc = words, signature, doc
        self.clauses, self.is_law, self.imports = clauses, is_law, imports
        self.name = re.search(r"\bfn\s+(\w+)", signature).group(1)


class Block:
    """An impl or a trait, with what stands in it."""

    def __init__(self, header, doc):
        self.header, self.doc = header, doc
        self.calls, self.ghosts = [], OrderedDict()


class Source:
    """What a file holds."""

    def __init__(self, head):
        self.head, self.calls, self.blocks = head, [], []
        self.modules, self.uses, self.types = [], [], set()


def one_line(text):
    return " ".join(text.split())


def imports_of(line, into):
    """Adds the names that a line `use Rattle.CRATE.specs.FILE.{..}` brings in."""
    found = IMPORT.search(line)
    if not found:
        return
    crate, file, names, alias = found.groups()
    if alias:
        into[alias] = (crate, file, None)
        return
    for name in names.split(","):
        parts = name.split()
        if parts:
            into[parts[-1]] = (crate, file, parts[0])


def read_clauses(text, at):
    """The clauses from `at` on, and the place of the body or of the semicolon."""
    clauses, heads, blank = [], [], False
    while True:
        found = re.compile(r"\s*").match(text, at)
        if found.group().count("\n") > 1:
            blank = True
        at = found.end()
        if text.startswith("//", at):
            end = step(text, at, True)
            heads.append(text[at:end].lstrip("/").strip())
            at = end
            continue
        found = re.compile(r"(requires|ensures)(\*?)\s*(\w+)?\s*(?=\{)").match(text, at)
        ghost = re.compile(r"ghost\s+(\w+)\s*:\s*(?=\{)").match(text, at)
        if found or ghost:
            match = found or ghost
            end = after_block(text, match.end(), code=False)
            inner = one_line(text[match.end() + 1 : end - 1])
            kind = found.group(1) + found.group(2) if found else "ghost"
            name = (found.group(3) if found else ghost.group(1)) or ""
            clauses.append(Clause(kind, name, inner, (blank, heads)))
            heads, blank, at = [], False, end
            continue
        return clauses, at


def read_items(text, at, end, source, block, imports):
    """Reads the items from `at` to `end` into the source, or into the block in which they stand."""
    doc, tested = [], False
    while True:
        at = re.compile(r"\s*").match(text, at).end()
        if at >= end:
            return
        if text.startswith("///", at):
            stop = step(text, at, True)
            doc.append(text[at + 3 : stop].strip())
            at = stop
            continue
        if text.startswith("//", at):
            at = step(text, at, True)
            continue
        if text[at] == "#":
            stop = after_block(text, text.index("[", at))
            tested = tested or "cfg(test)" in text[at:stop] or "#[test]" in text[at:stop]
            at = stop
            continue
        at = read_item(text, at, source, block, imports, doc, tested)
        doc, tested = [], False


def read_item(text, at, source, block, imports, doc, tested):
    """Reads one item, and answers the place after it."""
    rest = text[at : at + 200]
    if re.match(r"ghost\s+use\b", rest):
        stop = text.index(";", at) + 1
        imports_of(text[at:stop], imports)
        return stop
    ghost = re.match(r"ghost\s+(\w+)\s*(=|:)", rest)
    if ghost:
        stop = after_semicolon(text, at)
        if block is not None:
            inner = text[at + ghost.end() : stop - 1].strip()
            block.ghosts[ghost.group(1)] = (one_line(inner.strip("{}")), doc)
        return stop
    if re.match(r"(pub\s+)?use\b", rest):
        stop = text.index(";", at) + 1
        if rest.startswith("pub"):
            source.uses.append(one_line(text[at : stop - 1]))
        return stop
    if re.match(r"(pub(\([^)]*\))?\s+)?mod\s+\w+\s*;", rest):
        stop = text.index(";", at) + 1
        if not tested:
            source.modules.append(text[at:stop].split("mod")[-1].strip(" ;"))
        return stop
    if re.match(r"(pub(\([^)]*\))?\s+)?mod\s+\w+\s*\{", rest):
        return after_block(text, text.index("{", at))
    if re.match(r"(pub(\([^)]*\))?\s+)?((const|unsafe|extern\s+\S+)\s+)*fn\b", rest):
        return read_call(text, at, source, block, imports, doc, tested)
    if re.match(r"(unsafe\s+)?impl\b|(pub(\([^)]*\))?\s+)?trait\b", rest):
        start = text.index("{", at)
        inner = Block(one_line(text[at:start]), doc)
        stop = after_block(text, start)
        scope = dict(imports)
        read_items(text, start + 1, stop - 1, source, inner, scope)
        if not tested:
            source.blocks.append(inner)
        return stop
    if re.match(r"(pub(\([^)]*\))?\s+)?(struct|enum|union)\b", rest):
        found = re.match(r"pub\s+(?:struct|enum|union)\s+(\w+)", rest)
        if found:
            source.types.add(found.group(1))
        while text[at] not in ";{":
            at = after_block(text, at) if text[at] in "([" else step(text, at, True)
        return at + 1 if text[at] == ";" else after_block(text, at)
    return after_semicolon(text, at)


def read_call(text, at, source, block, imports, doc, tested):
    """Reads a function, and answers the place after it."""
    start = at
    word = re.compile(r"(requires|ensures|ghost)\b")
    while text[at] not in "{;" and not text.startswith("//", at):
        if text[at].isspace() and word.match(text, at + 1):
            at += 1
            break
        at = after_block(text, at) if text[at] in "([" else step(text, at, True)
    signature = one_line(text[start:at])
    clauses, at = read_clauses(text, at)
    stop = at + 1 if text[at] == ";" else after_block(text, at)
    body = "" if text[at] == ";" else text[at + 1 : stop - 1].strip()
    is_law = block is None and text[at] == "{" and not body and "->" not in signature
    if not tested:
        call = Call(signature.split(" fn ")[0].replace(' extern "C"', ""), signature, doc, clauses, is_law, imports)
        (block.calls if block is not None else source.calls).append(call)
    return stop


def read_source(path):
    text = path.read_text()
    head = [line[3:].strip() for line in text.splitlines() if line.startswith("//!")]
    source = Source(head)
    read_items(text, 0, len(text), source, None, {})
    return source


# ---- reading definitions


class Definition:
    def __init__(self, crate, file, name, text, imports):
        self.crate, self.file, self.name, self.text, self.imports = crate, file, name, text, imports
        self.key = (crate, file, name)
        self.head, self.fields, self.doc = "", [], ""


def read_record(one, text):
    """Gives the definition of a record its fields as clauses, where each of them has a sentence of its own over it."""
    head, *lines = text.split("\n")
    if not head.rstrip().endswith("where"):
        return
    one.head = " ".join([one.name] + [name for group in re.findall(r"\(([^:()]+) :", head) for name in group.split()])
    fields, sentences = [], []
    for line in lines:
        if line and not line.startswith("  "):
            break
        if line.startswith("  -- "):
            sentences.append(line[5:])
        elif line.startswith("  pub "):
            name, inner = line[6:].split(" : ", 1)
            fields.append(Clause("", name, inner, (False, sentences)))
            sentences = []
        elif line.strip() and fields:
            fields[-1].text += " " + line.strip()
    if fields and all(field.heads[1] for field in fields):
        one.fields = fields


DEFINITION = re.compile(r"^(?:abbrev |unfoldable )*pub (?:record |data )?([^\s:({]+)", re.M)


def definitions_of(crate):
    """The definitions of specs/, by crate, file and name."""
    found = OrderedDict()
    folder = TOP / "crates" / crate / "specs"
    for path in sorted(folder.rglob("*.antt")) if folder.is_dir() else []:
        file = ".".join(path.relative_to(folder).with_suffix("").parts)
        whole = path.read_text()
        lines = [line for line in whole.splitlines() if not line.lstrip().startswith("--")]
        imports = {}
        for line in lines:
            if line.startswith("use "):
                imports_of(line, imports)
        text = "\n".join(line for line in lines if not line.startswith(("use ", "pub mod ")))
        places = [(m.start(), m.group(1)) for m in DEFINITION.finditer(text)]
        for (start, name), (stop, _) in zip(places, places[1:] + [(len(text), "")]):
            found[(crate, file, name)] = Definition(crate, file, name, text[start:stop], imports)
        for match in re.finditer(r"((?:^-- .*\n)*)^pub record ([^\s:({]+)", whole, re.M):
            one = found[(crate, file, match.group(2))]
            one.doc = " ".join(line[3:] for line in match.group(1).splitlines())
            read_record(one, whole[match.start(2) :])
    return found


def named_in(text, crate, file, imports, known):
    """The definitions that a text names: by an import, by the alias of a file, or as one of its own file."""
    keys = []
    for alias, word in dict.fromkeys(QUALIFIED.findall(re.sub(r'"[^"]*"', "", text))):
        file_of = imports.get(alias)
        if file_of and not file_of[2]:
            found = [(file_of[0], file_of[1], word)]
        else:
            homes = [(imports.get(name), name) for name in (alias, word) if name]
            found = [(home[0], home[1], home[2]) if home and home[2] else (crate, file, name) for home, name in homes]
        keys += [key for key in dict.fromkeys(found) if key in known and key not in keys]
    return keys


def told_by(clause, imports, known):
    """The record that a clause is, if that has fields with sentences."""
    word = NAME.match(clause.text)
    keys = named_in(word.group(), "", "", imports, known) if word else []
    return known[keys[0]] if keys and known[keys[0]].fields else None


def names_of(entry, known):
    """The clauses of an entry and the fields of the records that they are, each with the definitions that it names."""
    imports = entry.call.imports if entry.call else {}
    for clause in entry.clauses:
        yield clause, named_in(clause.text, "", "", imports, known)
        one = told_by(clause, imports, known)
        for field in one.fields if one else []:
            yield field, named_in(field.text, one.crate, one.file, one.imports, known)
