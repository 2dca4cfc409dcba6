#!/usr/bin/env python3
"""Works out what the rows `packed` of rows_base must print, and compares it with what is stored; outside the gate.

    tests/packed.py            compares
    tests/packed.py --print    prints what is due

A job is packed and read here as docs/FORMATS.md says ('A packed job'). It shares no code with the program, and needs Python alone.
"""
import sys

from lib.stored_rows import part_of

MOST = 2**32 - 1
LEAST = {2: 253, 4: 2**16, 8: 2**32}  # by how many bytes follow the first, the least number that is spelled so


class Fault(Exception):
    """The first fault in reading order."""


def compact(number):
    """The shortest spelling of a number (BIP 144, CompactSize)."""
    if number < 253:
        return bytes([number])
    first, size = next((first, size) for first, size in ((253, 2), (254, 4), (255, 8)) if number < 256**size)
    return bytes([first]) + number.to_bytes(size, "little")


def packed(saved, parts):
    return b"".join([compact(len(saved)), saved, compact(len(parts)), *(compact(len(part)) + part for part in parts)])


class Reader:
    """Bytes that are read one after the other."""

    def __init__(self, data):
        self.data, self.place = data, 0

    def take(self, count):
        if count > len(self.data) - self.place:
            raise Fault(f"Truncated {self.place}")
        self.place += count
        return self.data[self.place - count : self.place]

    def compact(self):
        start, size = self.place, {253: 2, 254: 4, 255: 8}.get(self.data[self.place] if self.place < len(self.data) else 0, 0)
        field = self.take(1 + size)
        number = int.from_bytes(field[1:] if size else field, "little")
        if size and number < LEAST[size]:
            raise Fault(f"LongCompact {start}")
        return number

    def string(self):
        return self.take(self.compact())

    def job(self):
        saved, count = self.string(), self.compact()
        if not 1 <= count <= MOST:
            raise Fault("Parts")
        parts = [self.string() for _ in range(count)]
        if self.place < len(self.data):
            raise Fault(f"Trailing {self.place}")
        return saved, parts


def digits(data):
    return data.hex() or "-"


def bytes_of(column):
    return bytes.fromhex("" if column == "-" else column)


def read(column):
    try:
        saved, parts = Reader(bytes_of(column)).job()
    except Fault as fault:
        return str(fault)
    return " part ".join(["saved " + digits(saved), *map(digits, parts)])


def keep(columns):
    kept = {}
    for name, column in (word.split("=") for word in columns):
        try:
            kept[name] = Reader(bytes_of(column)).job()
            end = "kept"
        except Fault as fault:
            end = str(fault)
        yield f"{name}: {end}, packed {digits(packed(*kept[name]) if name in kept else b'')}"


def due(row):
    """The lines that are printed of a row."""
    family, verb, *columns = row.split("\t")
    assert family == "packed", row
    if verb == "keep":
        return list(keep(columns))
    if verb == "write":
        saved, *parts = map(bytes_of, columns)
        return [digits(packed(saved, parts))]
    return [read(columns[0])]


def main():
    rows = part_of("rows_base", "stdin", "packed").splitlines()
    lines = [line for row in rows for line in due(row)]
    if sys.argv[1:] == ["--print"]:
        print("\n".join(lines))
        return 0
    stored = part_of("rows_base", "stdout", "packed").splitlines()
    wrong = [pair for pair in zip(lines, stored) if pair[0] != pair[1]]
    if wrong or len(lines) != len(stored):
        print(f"WRONG: {len(lines)} lines are due, {len(stored)} are stored; {wrong[:3]}")
        return 1
    print(f"{len(rows)} rows of packed jobs, {len(lines)} lines: all as stored")
    return 0


if __name__ == "__main__":
    sys.exit(main())
