"""Stored runs as their files have them: the rows of a part of a program and what it must print of them, and the cases that rows of
rows_cases make.

A part begins at a row `# PART`, or `case` with this text, and what is printed of it at that line. A row's columns have tabs
between them. In a text `\\n`, `\\t` and `\\\\` are a line feed, a tab and a backslash, `\\xHH` is the byte HH, and `-` alone is no
byte."""

import collections
import pathlib
import re

CRATES = pathlib.Path(__file__).resolve().parent.parent.parent / "crates"
HEADING = re.compile(r"^(?:case\t)?# (\w+)(?:\\n)?\n", re.MULTILINE)
ESCAPES = {"n": b"\n", "t": b"\t"}

# A command of a case: its verb and columns, the files that are there, and the puts that fail.
Step = collections.namedtuple("Step", "verb columns files puts")


def part_of(crate, file, part):
    """A part of the file `stdin` or `stdout` of a program, without its heading."""
    _, *found = HEADING.split((CRATES / crate / file).read_text(encoding="utf-8"))
    return dict(zip(found[::2], found[1::2]))[part]


def bytes_of(column):
    """The bytes that a column stands for."""
    if column == "-":
        return b""

    def byte(escape):
        word = escape[1]
        return chr(int(word[1:], 16)) if word.startswith("x") else ESCAPES.get(word, word.encode()).decode()

    # each byte is one character here: what isn't ASCII in a row stands for its bytes of UTF-8
    text = column.encode().decode("latin-1")
    return re.sub(r"\\(x[0-9a-f]{2}|.)", byte, text).encode("latin-1")


def column(data):
    """The column that stands for these bytes."""
    if data in (b"", b"-"):
        return "\\x2d" if data else "-"
    plain = {10: "\\n", 9: "\\t", 92: "\\\\"}
    return "".join(plain.get(byte, chr(byte) if 32 <= byte < 127 else f"\\x{byte:02x}") for byte in data)


def commands_of(part):
    """The commands of a part of rows_cases, in order."""
    files, puts = {}, []
    for row in part_of("rows_cases", "stdin", part).splitlines():
        verb, *columns = row.split("\t")
        if verb == "case":
            files, puts = {}, [int(word) for word in "".join(columns[3:4]).split()]
        elif verb in ("file", "more"):
            name, text, *count = columns
            before = files.get(name, b"") if verb == "more" else b""
            files[name] = before + bytes_of(text) * int(count[0] if count else 1)
        elif verb in ("do", "sum", "surely", "whole", "pay", "settled"):
            yield Step(verb, columns, dict(files), puts)


def answers_of(part):
    """The commands of a part of rows_cases, the last one first, each with the status and the text that are to be printed of it."""
    printed = part_of("rows_cases", "stdout", part)
    for step in reversed(list(commands_of(part))):
        printed, _, told = printed.rpartition(f"{step.columns[0]}status ")
        status, _, text = told.partition("\n")
        yield step, int(status), text
    assert printed == "", f"{part}: this is printed of no command: {printed[:200]}"


def files_of(*parts):
    """The files of these parts of rows_cases, by their names."""
    found = {}
    for part in parts:
        for step in commands_of(part):
            found.update(step.files)
    return found
