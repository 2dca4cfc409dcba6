#!/usr/bin/env python3
"""Judges what `wide`, `share` and `sweep` come to by docs/FORMATS.md and docs/CLOSING_LOG.md alone (pages/further.py); outside the gate.

    tests/further.py [FOLDER..]

looks at what the parts `wide`, `share` and `sweep` of rows_cases have to print, or at folders of such cases. Each of these has a folder
for each case, with wallet.json, blocks.dat, request.json, status, stdout, and log where one is written; the folder of cases is named by
the command. It shares no code with the program, and needs Python alone.
"""
import collections
import pathlib
import sys

from lib.programs import counted
from lib.stored_rows import answers_of
from pages.further import COMMANDS, judge


def cases_in(folder):
    for case in sorted(pathlib.Path(folder).iterdir()):
        files = {path.name: path.read_bytes() for path in case.iterdir()}
        log = files["log"].decode() if "log" in files else None
        yield case.name, files, int(files["status"]), files["stdout"].decode(), log


def stored_cases(command):
    """The cases of a part of rows_cases: the files of its input, and what is to be printed for them."""
    for step, status, text in answers_of(command):
        report, mark, log = text.partition("wide-log 1\n" if command == "wide" else "fund-log 1\n")
        yield step.columns[0], step.files, status, report.removesuffix("no log\n"), mark + log if mark else None


def main():
    ends = collections.Counter()
    given = {pathlib.Path(name).name: cases_in(name) for name in sys.argv[1:]}
    for command, cases in (given or {command: stored_cases(command) for command in COMMANDS}).items():
        for name, files, status, printed, log in cases:
            try:
                ends[f"{command} {judge(command, files, status, printed, log)}"] += 1
            except AssertionError as wrong:
                print(f"WRONG, {command} {name}: {wrong}")
                return 1
    print(f"each as it should be: {counted(ends)}")
    return 0


if __name__ == "__main__":
    sys.exit(main())
