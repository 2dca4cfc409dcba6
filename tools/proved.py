#!/usr/bin/env python3
"""Makes the pages of clauses from the sources: docs/proved/CRATE.md has each public call of a library with its clauses as they stand,
and docs/PROVED.md is their index.

    python3 tools/proved.py              writes the pages
    python3 tools/proved.py --check      fails if the pages aren't what the sources make
    python3 tools/proved.py where NAME   the file of a definition, the fields of `run` that reach it, and each clause that does,
                                         nearest first, with the page that shows it; CRATE::NAME where several crates have one of
                                         that name. Where no field does, the laws that say the same of definitions that a field reaches
    python3 tools/proved.py unreached    the definitions that no clause of a public call reaches

It reads crates.txt for the crates and their order, src/ for the calls and specs/ for the definitions. A crate that is
listed but has no src/lib.rt is a program and has no public calls.
"""

import difflib
import re
import sys
import textwrap
from collections import OrderedDict, deque

from crate_calls import crates_in_order, reach
from rattle_text import TOP, after_block, named_in, names_of, told_by

INDEX = TOP / "docs" / "PROVED.md"
FOLDER = TOP / "docs" / "proved"
DEFINITIONS = TOP / "docs" / "DEFINITIONS.md"
WIDTH = 116
TOP_CALL = "fund_top run: "
NEAREST = 3  # pages that `where` names
LONGEST = 700  # letters of a clause that are shown; a longer one is cut


# ---- the page


INTRO = (TOP / "tools" / "proved_intro.md")


def shown(text):
    """A clause's text, cut where it is very long."""
    if len(text) <= LONGEST:
        return text
    return text[: text.rindex(" ", 0, LONGEST)] + " .."


def wrapped(head, text):
    room = " " * max(4, min(20, len(head)))
    lines = textwrap.wrap(text, WIDTH - len(room), break_long_words=False, break_on_hyphens=False)
    return [(room if at else head) + line for at, line in enumerate(lines)]


def clause_lines(clauses):
    kinds = {"requires": "needs", "ensures": "", "": ""}
    labels = [f"{kinds.get(c.kind, c.kind)} {c.name}".strip() for c in clauses]
    wide = min(18, max(len(label) for label in labels))
    lines = []
    for clause, label in zip(clauses, labels):
        blank, heads = clause.heads
        if lines and (heads or blank):
            lines.append("")
        if heads:
            lines += [f"-- {line}" for line in textwrap.wrap(" ".join(heads), WIDTH - 3)]
        lines += wrapped(label.ljust(wide) + "  " if wide else "", shown(clause.text))
    return lines


def signature_lines(signature):
    text = re.sub(r"^pub ", "", signature)
    text = re.sub(r"\(\s+", "(", re.sub(r",\s*\)", ")", text))
    return textwrap.wrap(text, WIDTH, subsequent_indent="    ", break_long_words=False, break_on_hyphens=False)


def first_sentences(doc):
    """The first paragraph of a comment, as one text."""
    words = []
    for line in doc:
        if not line:
            break
        words.append(line)
    return " ".join(words)


def plain_links(text):
    """Links to items of the code, as in [`Type`] or [`crate::f`], without their brackets."""
    return re.sub(r"\[(`[^`]*`)\](\([^)]*\))?", lambda m: m.group(1).replace("crate::", ""), text)


def entry_lines(entry, known):
    lines = [f"**`{entry.title}`**" + (f" {entry.note}" if entry.note else "") + f" ({entry.path.name})", ""]
    if entry.call and entry.call.doc:
        lines += textwrap.wrap(plain_links(first_sentences(entry.call.doc)), WIDTH) + [""]
    if entry.clauses:
        head = [] if entry.call is None or entry.call.is_law else signature_lines(entry.call.signature) + [""]
        lines += ["```text"] + head + clause_lines(entry.clauses) + ["```", ""]
        lines += record_lines(entry, known)
    else:
        lines += ["No clause.", ""]
    return lines


def record_lines(entry, known):
    """The fields of the records that clauses of the entry are."""
    lines = []
    for clause in entry.clauses:
        one = told_by(clause, entry.call.imports if entry.call else {}, known)
        if one:
            lines += textwrap.wrap(f"`{one.head}`: {one.doc}", WIDTH) + ["", "```text"] + clause_lines(one.fields) + ["```", ""]
    return lines


def homes(entries, known):
    """The definitions that the clauses name, by file."""
    files = OrderedDict()
    for entry in entries:
        for _, keys in names_of(entry, known):
            for crate, file, name in keys:
                if f"`{name}`" not in files.setdefault((crate, file), []):
                    files[(crate, file)].append(f"`{name}`")
    return files


def homes_lines(entries, known):
    files = homes(entries, known)
    if not files:
        return []
    lines = ["Definitions that these clauses name, by file:", ""]
    for crate, file in sorted(files):
        lines += listed(link_to(crate, file), sorted(files[(crate, file)]))
    return lines + [""]


def listed(head, names):
    """An entry of a list, wrapped."""
    text = "- " + head + ", ".join(names)
    return textwrap.wrap(text, WIDTH, subsequent_indent="  ", break_long_words=False, break_on_hyphens=False)


def link_to(crate, file):
    """A link from a crate's page to a file of definitions."""
    return f"[{crate} {file}](../../crates/{crate}/specs/{file.replace('.', '/')}.antt): "


def pages():
    """The text of each page, by its path: the index, and a page for each crate that has a clause."""
    crates = crates_in_order()
    known, direct, through = reach(crates)
    shown_here = [crate for crate in crates if any(entry.clauses for entry in crate.calls + crate.laws)]
    found = {FOLDER / f"{crate.name}.md": text_of(page_lines(crate, known, direct, through)) for crate in shown_here}
    found[INDEX] = text_of(index_lines(shown_here))
    return found


def text_of(lines):
    return "\n".join(lines).rstrip() + "\n"


def index_lines(crates):
    """The index: how a clause is read, and each crate with its page."""
    lines = [INTRO.read_text().rstrip(), "", "## Contents", "", "| Crate | Calls and rules of types | Laws | Clauses |", "|---|---|---|---|"]
    for crate in crates:
        count = sum(len(entry.clauses) for entry in crate.calls + crate.laws)
        laws = f"[{len(crate.laws)}](proved/{crate.name}.md#laws)" if crate.laws else ""
        lines.append(f"| [{crate.name}](proved/{crate.name}.md) | {len(crate.calls)} | {laws} | {count} |")
    return lines


def page_lines(crate, known, direct, through):
    """The page of a crate: its calls, its laws, and its definitions that clauses reach through others."""
    lines = [f"# {crate.name}", "", "[PROVED](../PROVED.md) says how a clause is read. `tools/proved.py` makes this page.", ""]
    lines += textwrap.wrap(plain_links(crate.head), WIDTH) + [""] if crate.head else []
    for title, entries in (("Calls", crate.calls), ("Laws", crate.laws)):
        if entries:
            lines += [f"## {title}", ""]
            for entry in entries:
                lines += entry_lines(entry, known)
            lines += homes_lines(entries, known)
    return lines + reached_lines(crate, direct, through)


def reached_lines(crate, direct, through):
    """The definitions of a crate that no clause names, by file, each with one that a clause names and that goes through it."""
    files = OrderedDict()
    for key in crate.definitions:
        if key in through and key not in direct:
            at = key
            while through[at] is not None:
                at = through[at]
            files.setdefault(key[1], OrderedDict()).setdefault(f"`{at[2]}`", []).append(f"`{key[2]}`")
    if not files:
        return []
    lines = [
        "## Reached through another",
        "",
        "These definitions stand in no clause, but within another that does: `A`, `B` via `C` says that `C` is built on",
        "`A` and on `B`, at once or through others. `python3 tools/proved.py where A` prints the way.",
        "",
    ]
    for file, ways_there in files.items():
        text = "; ".join(f"{', '.join(names)} via {last}" for last, names in ways_there.items())
        lines += listed(link_to(crate.name, file), [text])
    return lines


def above(known):
    """For each definition those that name it."""
    users = {}
    for key, one in known.items():
        for other in named_in(one.text, one.crate, one.file, one.imports, known):
            if other != key:
                users.setdefault(other, []).append(key)
    return users


def ways(key, users):
    """The definitions that are built on this one, nearest first, each with the next one on its way down to it."""
    below, waiting = {key: None}, deque([key])
    while waiting:
        one = waiting.popleft()
        for user in users.get(one, []):
            if user not in below:
                below[user] = one
                waiting.append(user)
    return below


def in_tables(keys):
    """Of these definitions those that a row of docs/DEFINITIONS.md names, beside a link to their file."""
    rows = [line for line in DEFINITIONS.read_text().splitlines() if line.startswith("|")]
    return [key for key in keys if any(f"`{key[2]}`" in row and f"({'../' + path_of(key)})" in row for row in rows)]


def path_of(key):
    return f"crates/{key[0]}/specs/{key[1].replace('.', '/')}.antt"


def fields_of(below, direct):
    """The fields of `run` that reach a definition, by those that are built on it."""
    tops = [place.replace("`", "").partition(TOP_CALL) for one in below for place in direct.get(one, [])]
    return list(dict.fromkeys(rest for _, call, rest in tops if call))


BINDER = re.compile(r"\([^():]+ : [^()]*\)")  # names and their type


def split_by(mark, text):
    """The parts of a text between marks that stand in no bracket."""
    parts, depth = [""], 0
    for letter in text:
        depth += {"(": 1, "[": 1, "{": 1, ")": -1, "]": -1, "}": -1}.get(letter, 0)
        if letter == mark and depth == 0:
            parts.append("")
        else:
            parts[-1] += letter
    return parts


def unwrapped(text):
    """A text without the brackets around the whole of it."""
    text = text.strip()
    return text[1:-1] if text.startswith("(") and after_block(text, 0, code=False) == len(text) else text


def said_with(key, clause, imports, known):
    """Whether a clause concludes of a definition, and the others of which it says so: those of the other side of what it
    concludes, else all of what it concludes, else those of its conditions."""
    *conditions, conclusion = split_by("→", BINDER.sub("", clause.text))
    sides = split_by("↔", unwrapped(conclusion))
    there = [side for side in sides if key in named_in(side, "", "", imports, known)]
    beside = [side for side in sides if len(sides) == 2 and side not in there]
    for text in (" ".join(beside), conclusion, " ".join(conditions)):
        others = [one for one in named_in(text, "", "", imports, known) if one != key]
        if others:
            return bool(there), others
    return bool(there), []


def laws_by_definition(crates, known):
    """For each definition the laws that name it, each with its clause and its file's imports."""
    laws = {}
    for crate in crates:
        for entry in crate.laws:
            for clause, keys in names_of(entry, known):
                for key in keys:
                    laws.setdefault(key, []).append((f"{crate.name} {entry.title}", clause, entry.call.imports))
    return laws


def by_laws(key, laws, known, users, direct):
    """Lines that lead from a definition to `run` by laws that name it: the law, another definition in it, and the fields that
    reach that. Where a law concludes of the definition, only such laws count."""
    lines = {True: [], False: []}
    for title, clause, imports in laws.get(key, []):
        concluded, others = said_with(key, clause, imports, known)
        for one in others:
            fields = fields_of(ways(one, users), direct)
            if fields:
                lines[concluded].append(f"by the law {title}: {one[2]}: {', '.join(fields)}")
    return list(dict.fromkeys(lines[True] or lines[False]))


def where(name):
    crates = crates_in_order()
    known, direct, _ = reach(crates)
    users, laws = above(known), laws_by_definition(crates, known)
    crate, _, name = name.rpartition("::")
    keys = [key for key in known if key[2] == name and crate in ("", key[0])]
    if not keys:
        sys.exit(f"{name}: no definition of specs/ has this name")
    if len(keys) > 1:
        first = in_tables(keys)
        keys = first + [key for key in keys if key not in first]
        print(f"{len(keys)} definitions: {', '.join(f'{key[0]}::{name}' for key in keys)}")
        if first:
            print(f"in docs/DEFINITIONS.md: {', '.join(f'{key[0]}::{name}' for key in first)}")
    for key in keys:
        print(f"{name}: {path_of(key)}")
        below = ways(key, users)
        if not any(one in direct for one in below):
            print("  no clause of a public call reaches it")
        fields = fields_of(below, direct)
        if fields:
            print(f"  {TOP_CALL}{', '.join(fields)}")
        else:
            lines = (by_laws(one, laws, known, users, direct) for one in below)
            for line in next(filter(None, lines), []):
                print(f"  {line}")
        print_clauses(key, below, direct)


def print_clauses(key, below, direct):
    """Prints the clauses that reach a definition, nearest first, with the way of each."""
    for one in below:
        if one not in direct:
            continue
        way, at = [], one
        while at != key:
            way.append(at[2])
            at = below[at]
        if way:
            print(f"  through {' on '.join(way)} ({one[0]} {one[1]})")
        for place in dict.fromkeys(direct[one]):
            print(f"    {place.replace('`', '')}")
    shown_by = dict.fromkeys(place.split(" ")[0] for one in below for place in direct.get(one, []))
    if shown_by:
        print("  shown in " + ", ".join(f"docs/proved/{name}.md" for name in list(shown_by)[:NEAREST]))


def unreached():
    crates = crates_in_order()
    known, _, through = reach(crates)
    for key in known:
        if key not in through:
            print(f"{key[0]} {key[1]} {key[2]}")


def check():
    """Ends with what differs, where a page isn't what the sources make."""
    due = pages()
    for path in sorted({*due, *FOLDER.glob("*.md")}):
        name = path.relative_to(TOP)
        old, new = path.read_text() if path.is_file() else "", due.get(path, "")
        if old != new:
            changes = difflib.unified_diff(old.splitlines(), new.splitlines(), str(name), "the sources", lineterm="", n=0)
            print("\n".join(list(changes)[:40]))
            sys.exit(f"{name} isn't what the sources make: run python3 tools/proved.py")
    print("docs/PROVED.md and docs/proved/ are what the sources make")


def write():
    """Writes the pages, and takes away those of crates that aren't there any more."""
    FOLDER.mkdir(exist_ok=True)
    due = pages()
    for path in FOLDER.glob("*.md"):
        if path not in due:
            path.unlink()
    for path, text in due.items():
        path.write_text(text)


def main():
    words = sys.argv[1:]
    if words[:1] == ["where"] and len(words) == 2:
        where(words[1])
    elif words == ["unreached"]:
        unreached()
    elif words == ["--check"]:
        check()
    elif not words:
        write()
    else:
        sys.exit(__doc__)


try:
    main()
except BrokenPipeError:
    sys.stderr.close()
