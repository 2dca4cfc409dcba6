#!/usr/bin/env python3
"""Judges what `settle` comes to by docs/FORMATS.md alone (pages/settlings.py); outside the gate.

    tests/settlings.py [FOLDER]

looks at what the part `settle` of rows_cases has to print, or at a folder with a folder for each case, with wallet.json, request.json,
report, tx, status and stdout. It shares no code with the program, and needs Python alone.
"""
import collections
import pathlib
import sys

from lib.programs import counted
from lib.stored_rows import answers_of
from pages.settlings import judge


def cases_in(folder):
    for case in sorted(pathlib.Path(folder).iterdir()):
        files = {path.name: path.read_bytes() for path in case.iterdir()}
        yield case.name, files, int(files["status"]), files["stdout"].decode()


def stored_cases():
    """The cases of the part of rows_cases: the files of its input, and what is to be printed for them."""
    for step, status, text in answers_of("settle"):
        yield step.columns[0], step.files, status, text


def main():
    ends = collections.Counter()
    for name, files, status, printed in cases_in(sys.argv[1]) if len(sys.argv) > 1 else stored_cases():
        try:
            ends[judge(files, status, printed)] += 1
        except AssertionError as wrong:
            print(f"WRONG, {name}: {wrong}")
            return 1
    print(f"each as it should be: {counted(ends)}")
    return 0


if __name__ == "__main__":
    sys.exit(main())
