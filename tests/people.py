#!/usr/bin/env python3
"""Runs a built ninelace, NINELACE, on stored words, and compares what it shows and its status with what is stored; outside the gate.

    tests/people.py NINELACE [FILE ..]

FILE is one of tests/people/*.txt, which are all of them where none is named. Each row of such a file is

    # what it is for
    % NAME = FROM | OLD | NEW    a file of this name is there: that one with the first OLD in place of NEW
    @ NAME CONTENT               a file of this name is there, its content as a JSON text
    $ WORDS                      the words behind the program's name, as a shell has them
    = STATUS                     the status
    > LINE                       a line of the standard output; a line that begins with a brace is compared as JSON
    ! LINE                       a line of the standard error
    + NAME CONTENT               a file that is there afterwards, its content as a JSON text

and no other file is there or changed afterwards. Each row has a folder of its own, with the files of FILES. The expected text
doesn't come from the program. Tables, PSBTs and logs are those of the stored runs of rows_cases and fund_cli, put
into the form of command_pay by hand or by a script. Sentences are those of docs/TROUBLES.md, which is looked at here. It
shares no code with the program, and needs Python alone.
"""
import glob
import json
import os
import shlex
import sys
import tempfile

from lib.programs import TOP, called, write
from lib.stored_rows import files_of as stored_files


def content(path):
    with open(path, "rb") as file:
        return file.read()


# The files of each row: those of the commands, payments and settlements of rows_cases, and the examples of fund_cli.
FILES = stored_files("files", "pay", "settled", "borne")
FILES.update((name, content(os.path.join(TOP, "crates/fund_cli/data", name))) for name in os.listdir(os.path.join(TOP, "crates/fund_cli/data")))
FILES["report.txt"] = content(os.path.join(TOP, "crates/fund_cli/stdout"))


class Row:
    """One row of a file of rows."""

    def __init__(self, name, words):
        self.name, self.words, self.status = name, words, None
        self.made, self.given, self.out, self.err, self.new = [], [], [], [], {}

    def take(self, sign, rest):
        if sign == "=":
            self.status = int(rest)
        elif sign == ">":
            self.out.append(rest)
        elif sign == "!":
            self.err.append(rest)
        elif sign == "+":
            name, _, text = rest.partition(" ")
            self.new[name] = json.loads(text).encode()


def rows_of(path):
    """The rows of a file."""
    rows, name, made, given = [], "", [], []
    for number, line in enumerate(open(path, encoding="utf-8").read().split("\n"), 1):
        sign, rest = line[:1], line[2:]
        if sign == "#":
            name, made, given = rest, [], []
        elif sign == "%":
            made.append(rest)
        elif sign == "@":
            given.append(rest)
        elif sign == "$":
            rows.append(Row(f"{os.path.basename(path)}:{number}: {name}", shlex.split(rest)))
            rows[-1].made, made = made, []
            rows[-1].given, given = given, []
        elif sign:
            rows[-1].take(sign, rest)
    return rows


def files_of(row):
    """The files that are there before the row, by their names."""
    files = dict(FILES)
    for made in row.made:
        name, _, how = made.partition(" = ")
        origin, old, new = (part.encode().decode("unicode_escape") for part in how.split(" | "))
        assert old.encode("latin-1") in files[origin], f"{row.name}: {old} isn't in {origin}"
        files[name] = files[origin].replace(old.encode("latin-1"), new.encode("latin-1"), 1)
    for given in row.given:
        name, _, text = given.partition(" ")
        files[name] = json.loads(text).encode()
    return files


def is_same(expected, printed):
    """Whether a line is the one that is due."""
    if not expected.startswith("{"):
        return expected == printed
    try:
        return json.loads(expected) == json.loads(printed)
    except ValueError:
        return False


def difference(expected, printed):
    """Where lines aren't those that are due; nothing where they are."""
    lines = printed.decode("utf-8", "replace")
    if lines and not lines.endswith("\n"):
        return "the last line has no line feed"
    lines = lines.split("\n")[:-1]
    for at in range(max(len(lines), len(expected))):
        due, is_there = expected[at : at + 1], lines[at : at + 1]
        if not due or not is_there or not is_same(due[0], is_there[0]):
            return f"line {at + 1}\n  due     {''.join(due)}\n  printed {''.join(is_there)}"
    return ""


def wrong_in(program, row):
    """What is wrong with what the program does of a row; nothing where it is as it should be."""
    before = files_of(row)
    with tempfile.TemporaryDirectory() as folder:
        write(folder, before)
        run = called(program, row.words, folder)
        after = {name: content(os.path.join(folder, name)) for name in os.listdir(folder)}
    if run.status != row.status:
        return f"status {run.status} in place of {row.status}: {run.printed[:300]} {run.errors[:300]}"
    wrong = difference(row.out, run.printed) or difference(row.err, run.errors)
    if wrong:
        return wrong
    names = [name for name in {**before, **row.new, **after} if {**before, **row.new}.get(name) != after.get(name)]
    return f"these files aren't as they should be: {' '.join(sorted(names))}" if names else ""


def sentences():
    """The sentences of docs/TROUBLES.md."""
    page = open(os.path.join(TOP, "docs/TROUBLES.md"), encoding="utf-8").read()
    return {line.strip("|").split("|")[1].strip() for line in page.split("\n") if line.count("|") == 3}


def told(row):
    """The sentence that a row is due by the page: behind a line that stops a command, or a word of `pay`. Nothing elsewhere."""
    lines, sentence = row.out[:-1], "".join(row.out[-1:])
    if sentence.startswith('{"status"'):
        shown = json.loads(sentence)
        lines, sentence = shown.get("lines", []), shown.get("advice")
    of_page = any(line.startswith(("fault ", "none", "unfinished")) for line in lines)
    return sentence if of_page or (row.words[:1] == ["pay"] and row.status == 2) else None


def main():
    program = os.path.abspath(sys.argv[1])
    paths = sys.argv[2:] or sorted(glob.glob(os.path.join(TOP, "tests/people/*.txt")))
    rows, known, bad = [row for path in paths for row in rows_of(path)], sentences(), 0
    for row in rows:
        sentence = told(row)
        wrong = wrong_in(program, row) or ("" if sentence is None or sentence in known else f"docs/TROUBLES.md lacks: {sentence}")
        if wrong:
            bad += 1
            print(f"WRONG {row.name}\n  {wrong}")
    print(f"{len(rows) - bad} of {len(rows)} rows as they should be")
    return 1 if bad else 0


if __name__ == "__main__":
    sys.exit(main())
