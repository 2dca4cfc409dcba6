#!/usr/bin/env python3
"""Checks the pages: links lead somewhere, names and clauses stand in the sources, the examples are the
stored run's and its files, the kit's line is that of `rt version`, numbers of stored rows are right, and sentences and cells are short.

    python3 tests/docs.py

A sentence has up to 30 words, a cell of a table up to 40. docs/PROVED.md and docs/proved/ are made from the sources, so that only
their links are checked; tests/proved.sh checks the pages themselves. No body of a crate asks for the type that it works on, so that
one body does the same over real files and over those in memory (docs/TRUST.md, 'Real files').
"""

import functools
import re
import shutil
import subprocess
import sys
from pathlib import Path

from lib.stored_rows import part_of

TOP = Path(__file__).resolve().parent.parent
MADE = [TOP / "docs" / "PROVED.md", *sorted((TOP / "docs" / "proved").glob("*.md"))]  # from the sources
PAGES = [TOP / "README.md", *(page for page in sorted((TOP / "docs").glob("*.md")) if page not in MADE)]
KIT = {"start_io", "start_lib", "tail_from", "rows_"}  # words of the kit, and examples
AVOIDED = ["want of memory", " reckon", "reckoned"]
faults = []


@functools.cache
def text_of(path):
    return path.read_text()


def words(text):
    text = re.sub(r"\]\([^)]*\)", "]", re.sub(r"`[^`]*`", "X", text))
    return len([w for w in text.split() if re.search(r"\w", w)])


def parts_of(page):
    """The lines of a page that stand in no fenced block, with their numbers."""
    fenced = False
    for number, line in enumerate(page.read_text().split("\n"), 1):
        if line.startswith("```"):
            fenced = not fenced
        elif not fenced:
            yield number, line


@functools.cache
def anchors_of(page):
    names = set()
    for _, line in parts_of(page):
        if line.startswith("#"):
            title = re.sub(r"[^\w\- ]", "", line.lstrip("#").strip().lower())
            names.add(title.replace(" ", "-"))
    return names


def check_links(page):
    for number, line in parts_of(page):
        for target in re.findall(r"\]\(([^)]+)\)", re.sub(r"`[^`]*`", "X", line)):
            if re.match(r"\w+://", target):
                continue
            path, _, anchor = target.partition("#")
            file = (page.parent / path).resolve() if path else page
            if not file.exists():
                faults.append(f"{page.name}:{number}: no file {target}")
            elif anchor and file.suffix == ".md" and anchor not in anchors_of(file):
                faults.append(f"{page.name}:{number}: no heading {target}")


def check_sentences(page, number, text):
    for sentence in re.split(r"(?:(?<=[.!?])|(?<=[.!?]\*\*))\s+", text):
        count = words(sentence)
        if count > 30:
            faults.append(f"{page.name}:{number}: {count} words: {sentence[:80]}")


def check_words(page):
    paragraph, first = [], 0
    for number, line in [*parts_of(page), (0, "")]:
        for word in AVOIDED:
            if word in line:
                faults.append(f"{page.name}:{number}: {word.strip()}")
        new = not line.strip() or line.startswith(("#", "|")) or re.match(r"\s*([-*]|\d+\.) ", line)
        if new and paragraph:
            check_sentences(page, first, " ".join(paragraph))
            paragraph = []
        if line.startswith("|"):
            for cell in line.strip("|").split("|"):
                if words(cell) > 40:
                    faults.append(f"{page.name}:{number}: a cell of {words(cell)} words: {cell[:80]}")
                check_sentences(page, number, cell)
        elif line.strip() and not line.startswith("#"):
            first = first if paragraph else number
            paragraph.append(line.strip())


def check_definitions():
    page = TOP / "docs" / "DEFINITIONS.md"
    for number, line in parts_of(page):
        files = re.findall(r"\(\.\./(crates/\w+/specs/[\w/]+\.antt)\)", line)
        if not line.startswith("|") or not files:
            continue
        texts = [text_of(TOP / file) for file in files if (TOP / file).is_file()]
        for name in re.findall(r"`([^`]+)`", line.split("|")[2]):
            if not any(re.search(rf"(?<![\w'-]){re.escape(name)}(?![\w'-])\s*[:({{]", text) for text in texts):
                faults.append(f"DEFINITIONS.md:{number}: {name} isn't defined in {', '.join(files)}")


@functools.cache
def clauses_shown():
    """The clauses that docs/proved/ shows of each call."""
    shown, call = {}, None
    for line in "\n".join(page.read_text() for page in MADE).split("\n"):
        found = re.match(r"\*\*`([^`]+)`\*\*", line)
        if found:
            call = found.group(1)
        elif line.startswith("#"):
            call = None
        elif call:
            clause = re.match(r"(\w+)  ", line)
            shown.setdefault(call, set()).update(clause.groups() if clause else ())
    return shown


def check_rules():
    """The table of rules names calls and clauses that docs/proved/ shows."""
    shown = clauses_shown()
    page = TOP / "docs" / "DEFINITIONS.md"
    for number, line in parts_of(page):
        if not line.startswith("|") or "](proved/" not in line:
            continue
        for part in line.split("|")[4].split(";"):
            call, *clauses = re.findall(r"`([^`]+)`", part) or [None]
            if call is None:  # a source
                continue
            if call not in shown:
                faults.append(f"DEFINITIONS.md:{number}: no call {call}")
            for clause in clauses:
                if clause not in shown.get(call, ()):
                    faults.append(f"DEFINITIONS.md:{number}: {call} has no clause {clause}")


def check_calls():
    """Tables of calls name calls and clauses that docs/proved/ shows."""
    shown = clauses_shown()
    for page in (TOP / "docs" / "ANSWERS.md", TOP / "docs" / "CLOSING_LOG.md"):
        within, call = False, None
        for number, line in parts_of(page):
            cells = [cell.strip() for cell in line.strip("|").split("|")]
            if cells[:2] == ["Call", "Clauses"]:
                within = True
            elif not line.startswith("|"):
                within = False
            elif within and not cells[0].startswith("-"):
                names = re.findall(r"`([^`]+)`", cells[1])
                call = cells[0].strip("`") or call
                for name in names if cells[0] == "law" else [call]:
                    if name not in shown:
                        faults.append(f"{page.name}:{number}: no call {name}")
                for clause in [] if cells[0] == "law" else names:
                    if clause not in shown.get(call, ()):
                        faults.append(f"{page.name}:{number}: {call} has no clause {clause}")


def check_kit():
    """The README's line of the kit is what `rt version` prints, where the kit is there."""
    if shutil.which("rt"):
        line = subprocess.run(["rt", "version"], capture_output=True, text=True).stdout.strip()
        if f"`{line}`" not in (TOP / "README.md").read_text():
            faults.append(f"README.md: rt version prints {line}")


def check_names():
    """Names of code that a page gives stand somewhere in the sources."""
    known = set(KIT)
    for folder in ("crates", "bench", "tests", "tools", "edits"):
        for path in (TOP / folder).rglob("*"):
            if "out" in path.relative_to(TOP).parts:
                continue
            if path.suffix in (".rt", ".antt", ".py", ".sh", ".edit", ".json"):
                known.update(re.findall(r"\w+", path.read_text()))
            known.update(re.findall(r"\w+", path.name))
    known.update(re.findall(r"\w+", (TOP / "crates.txt").read_text()))
    for page in PAGES:
        for number, line in parts_of(page):
            if page.name == "DEFINITIONS.md" and line.startswith("|"):
                line = line.rsplit("|", 2)[0]  # without the source, which names other projects' code
            for name in re.findall(r"`([A-Za-z_][\w:]*)`", line):
                for part in name.split("::"):
                    if "_" in part and not part.isupper() and part not in known:
                        faults.append(f"{page.name}:{number}: `{name}` stands nowhere in the sources")


def check_map():
    """Each crate of crates.txt stands in the map."""
    shown = set(re.findall(r"\w+", (TOP / "docs" / "MAP.md").read_text()))
    for line in (TOP / "crates.txt").read_text().splitlines():
        name = line.split("#")[0].split(":")[0].strip()
        if name and name.split()[0] not in shown:
            faults.append(f"MAP.md: {name} is missing")


# parts of rows_cases whose rows docs/TESTED.md counts, and the verbs that count; none: each but `case`, `file`, `more` and `new`
COUNTED = {
    "check": ("do",), "complete": ("whole",), "pay": ("pay",), "people": (), "wide": ("do",), "share": ("do",), "sweep": ("do",), "settle": ("do",),
    "settled": ("settled",), "works": (), "borne": ("pay",), "swept": ("sweep",),
}


def check_counts():
    """The numbers of docs/TESTED.md after the name of such a part are those of its rows."""
    page = text_of(TOP / "docs" / "TESTED.md")
    for part, verbs in COUNTED.items():
        rows = [row.split("\t")[0] for row in part_of("rows_cases", "stdin", part).splitlines()]
        count = len([verb for verb in rows if verb in verbs or not verbs and verb not in ("case", "file", "more", "new")])
        said = re.findall(rf"`{part}`[:,] (\d[\d,]*\d|\d)", page)
        if f"{count:,}" not in said:
            faults.append(f"TESTED.md: `{part}` has {count} rows, and {' and '.join(said) or 'nothing'} stands there")


def check_generic():
    """No body asks for the type that it works on: so real files run the code that is proved over files in memory."""
    asks = re.compile(r"\b(TypeId|type_id|type_name|type_name_of_val|downcast\w*|dyn\s+Any|transmute\w*|size_of_val|mem::size_of|needs_drop)\b")
    for path in sorted((TOP / "crates").glob("*/src/**/*.rt")):
        for number, line in enumerate(text_of(path).split("\n"), 1):
            if asks.search(line.split("//")[0]):
                faults.append(f"{path.relative_to(TOP)}:{number}: a body asks for its type")


def check_sample():
    """The report and the log of docs/ANSWERS.md, line by line: those of the example, with words cut."""
    lines = (TOP / "crates" / "fund_cli" / "stdout").read_text().splitlines()
    lines += re.search(r"```\n(fund-log 1\n.*?)```", (TOP / "docs" / "FORMATS.md").read_text(), re.S)[1].splitlines()
    blocks = re.findall(r"```\n(.*?)```", (TOP / "docs" / "ANSWERS.md").read_text(), re.S)
    shown = [re.sub(r" +<- \d+$", "", line) for block in blocks for line in block.splitlines()]
    alike = [re.fullmatch(".*".join(map(re.escape, cut.split(".."))), line) for cut, line in zip(shown, lines)]
    if len(shown) != len(lines) or not all(alike):
        faults.append("ANSWERS.md: its report and log aren't those of the example")


def check_example():
    """What the pages show is what the stored runs of ninelace and fund_cli print, and the files are those of data/."""
    for page, program in ((TOP / "README.md", "ninelace"), (TOP / "docs" / "FORMATS.md", "fund_cli")):
        printed = (TOP / "crates" / program / "stdout").read_text()
        if f"```\n{printed}```" not in page.read_text():
            faults.append(f"{page.name}: this isn't crates/{program}/stdout")
    check_sample()
    for page, name in (("FORMATS.md", "wallet.json"), ("FORMATS.md", "request.json"), ("USING.md", "with-change.json")):
        text = (TOP / "crates" / "fund_cli" / "data" / name).read_text()
        if f"```json\n{text}```" not in (TOP / "docs" / page).read_text():
            faults.append(f"{page}: it doesn't show crates/fund_cli/data/{name}")


for page in PAGES:
    check_links(page)
    check_words(page)
for page in MADE:
    check_links(page)
check_definitions()
check_rules()
check_calls()
check_kit()
check_names()
check_map()
check_counts()
check_generic()
check_example()
print("\n".join(faults) or "the pages are in order")
sys.exit(1 if faults else 0)
