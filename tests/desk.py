#!/usr/bin/env python3
"""Judges what `desk` in rows_cases has to print by docs/FORMATS.md alone (pages/desk.py); outside the gate.

    tests/desk.py

It goes through its stored cases, line by line. It shares no code with the program, and needs Python alone.
"""
import collections
import hashlib
import sys

from lib.programs import tell
from lib.stored_rows import answers_of
from pages.desk import judge, lines_of


def sum_of_turns(files):
    """The output of a script that opens a job and gives it so many turns, each of which uses up its tries."""
    lines, made = lines_of(files["script"]), 0
    text = "opened A\n"
    for line in lines[1:]:
        made += int(line.split(b" ")[2])
        text += f"unfinished A {made}\n"
    return f"{len(lines)} lines, SHA-256 {hashlib.sha256(text.encode()).hexdigest()}\n"


def main():
    ends = collections.Counter()
    stored = list(answers_of("desk"))
    for step, status, text in stored:
        try:
            if step.verb == "sum":
                assert status == 0 and text == sum_of_turns(step.files), text
                ends["long script"] += 1
            else:
                judge(step.files, step.puts, status, text, ends)
        except (AssertionError, TypeError, KeyError) as wrong:
            print(f"WRONG, {step.columns[0]}{wrong}")
            return 1
    tell(f"{len(stored)} stored cases", ends)
    return 0


if __name__ == "__main__":
    sys.exit(main())
