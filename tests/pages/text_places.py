"""Where the text of a report or of a log leaves its form, by docs/FORMATS.md alone: the first byte at which no such text goes on
as the bytes do, or their length where they end too early. For tests/mutate.py."""

from pages.kept_jobs import MOST, STAGES, Reader

MOST_64 = 2**64 - 1
MARKS = (b"exhausted", b"partial", b"drawn", b"given")


def ends(reader):
    if reader.at < len(reader.text):
        reader.fault = reader.at
        raise ValueError


def some(reader, is_one):
    """At least one byte of these, and all of them that stand there."""
    start = reader.at
    while reader.at < len(reader.text) and is_one(reader.text[reader.at]):
        reader.at += 1
    if reader.at == start:
        reader.fault = reader.at
        raise ValueError


def coin(reader):
    reader.digits()
    reader.word(b":")
    reader.number(0, MOST)
    reader.word(b" ")
    reader.number(0, MOST_64)


def signed(reader):
    """A whole number of 128 bits with its sign."""
    if reader.text[reader.at : reader.at + 1] == b"-":
        reader.at += 1
        reader.number(1, 2**127)
    else:
        reader.number(0, 2**127 - 1)


def place_and_tries(reader):
    reader.word(b"\nrow ")
    reader.number(0, 255)
    reader.word(b"\nstage ")
    reader.word(*STAGES, b"presets", b"draw")


def funded(reader):
    reader.word(*MARKS)
    place_and_tries(reader)
    reader.word(b"\ntries ")
    reader.number(0, MOST_64)
    reader.word(b"\nin ")
    coin(reader)
    while reader.word(b"\nin ", b"\nweight ") == b"\nin ":
        coin(reader)
    for name in (b"\nvsize ", b"\nfee ", b"\nwaste "):
        reader.number(0, MOST_64)
        reader.word(name)
    signed(reader)
    reader.word(b"\nchange ")
    if reader.text[reader.at : reader.at + 1].isdigit():
        reader.number(0, MOST_64)
    else:
        reader.word(b"none")
    reader.word(b"\npsbt ")
    some(reader, lambda byte: byte != 10)


def report(reader):
    kind = reader.word(b"funded ", b"none\ntries ", b"unfinished\ntries ")
    if kind == b"funded ":
        funded(reader)
    else:
        reader.number(0, MOST_64)
    if kind == b"unfinished\ntries ":
        place_and_tries(reader)
    reader.word(b"\n")
    ends(reader)


def log(reader):
    """A log that is ended."""
    reader.word(b"fund-log 1\n")
    while reader.word(b"section ", b"end\n") == b"section ":
        section_head(reader)
        letters(reader)
        section_end(reader)
    ends(reader)


def section_head(reader):
    reader.number(0, 255)
    reader.word(b" ")
    reader.word(*STAGES)
    reader.word(b" ")
    reader.digits()
    reader.word(b"\ntokens ")


def letters(reader):
    some(reader, lambda byte: 33 <= byte <= 126)


def section_end(reader):
    reader.word(b"\nanswer ")
    reader.places(b"none")
    reader.word(b"\n")


def sections_before_fault(text):
    """How many sections stand whole in a text that is no log, before its fault; None where it is one, ended or to go on."""
    reader, sections = Reader(text), 0
    try:
        reader.word(b"fund-log 1\n")
        while reader.word(b"section ", b"end\n") == b"section ":
            section_head(reader)
            if all(33 <= byte <= 126 for byte in text[reader.at :]):
                return None
            letters(reader)
            section_end(reader)
            sections += 1
        if reader.at == len(text):
            return None
    except ValueError:
        pass
    return sections


def fault_of(form, text):
    """The place at which the text leaves this form, or None."""
    reader = Reader(text)
    try:
        form(reader)
    except ValueError:
        return reader.fault
    return None
