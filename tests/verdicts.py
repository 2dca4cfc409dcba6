#!/usr/bin/env python3
"""Judges reports with their logs by the definitions of crates/report_check/specs, done again in pages/verdicts.py; outside the gate.

    tests/verdicts.py [FOLDER]

It looks at what the part `check` of rows_cases has to print. FOLDER has a folder for each case in place of that, with wallet.json,
blocks.dat, request.json, and report, log and stdout: the verdict that is due, as `accepted` or a line `fault check ..`. Where there
is no report, stdout is one that `fund` printed, which is to be accepted. It shares no code with the program, and needs Python alone.
"""
import collections
import pathlib
import sys

from lib.programs import counted
from lib.stored_rows import answers_of
from pages.verdicts import verdict

EARLIER = ("fault input", "fault read", "fault limit", "fault memory", "fault write")


def stored():
    """The cases of the part of rows_cases: their names, files, and what is printed of them."""
    for step, _, text in answers_of("check"):
        if step.columns[1] == "check":
            yield step.columns[0].strip(), step.files, text


def cases_in(folder):
    for case in sorted(pathlib.Path(folder).iterdir()):
        files = {path.name: path.read_bytes() for path in case.iterdir()}
        yield case.name, files, files["stdout"].decode("latin-1")


def due_of(files, printed):
    """The report of a case, and the fault that it is due: None where it is accepted. No report where the case ends before one is read."""
    first = printed.split("\n")[0]
    if "report" not in files and first.startswith(("funded", "none", "unfinished")):
        return printed, None
    if "report" not in files or first.startswith(EARLIER) and first != "fault read log":
        return None, None
    due = None if first == "accepted" else "no log" if first == "fault read log" else first.removeprefix("fault check ")
    return files["report"].decode("latin-1"), due


def is_alike(got, due):
    """Whether a verdict is the one that is due. Which fault a text has is the codecs' matter: only that there is one is known here."""
    return got == due or (got in ("Psbt", "LogForm", "Report") and due is not None and due.split(" ")[0] == got)


def main():
    ends, bad = collections.Counter(), 0
    for name, files, printed in cases_in(sys.argv[1]) if len(sys.argv) > 1 else stored():
        text, due = due_of(files, printed)
        if text is None:
            ends["not judged"] += 1
            continue
        got = verdict(files, text)
        if not is_alike(got, due):
            bad += 1
            print(f"{name}: {got or 'accepted'} where {due or 'accepted'} is due")
        ends[(due or "accepted").split(" ")[0]] += 1
    print(f"{counted(ends)}; {bad} otherwise")
    return 1 if bad else 0


if __name__ == "__main__":
    sys.exit(main())
