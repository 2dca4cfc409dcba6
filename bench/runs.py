#!/usr/bin/env python3
"""Measures a run over one search in turns of 50 tries beside the same run in one turn.

Usage: bench/runs.py PROGRAM [TRIES [ROUNDS]]

PROGRAM is crates/bench_all's program, as `rt run` leaves it in crates/bench_all/out. For pools of 100, 1,000 and 10,000
items of both kinds the run makes TRIES tries in one turn, and in turns of 50, each turn with a look at what the run comes
to. The least processor time of ROUNDS rounds counts, less that of a run without tries; and the greatest memory, less that
of a run without tries, by the tries. What both print must be equal.
"""
import os
import sys
import tempfile

from timing import best
from walks import problem

TURN = 50


def timed(rounds, words, output):
    """The least processor time in seconds, the greatest memory in bytes, and what the last run prints."""
    taken = best(words, rounds, output=output)
    return *taken, open(output).read()


def main():
    program = sys.argv[1]
    tries = int(sys.argv[2]) if len(sys.argv) > 2 else 2_000_000
    rounds = int(sys.argv[3]) if len(sys.argv) > 3 else 5
    print(f"load {os.getloadavg()[0]:.1f} on {os.cpu_count()} processors, {tries:,} tries, best of {rounds}")
    with tempfile.TemporaryDirectory() as folder:
        for count in (100, 1_000, 10_000):
            for kind in ("changeless", "lean"):
                path, printed = f"{folder}/{kind}-{count}", f"{folder}/printed"
                problem(path, kind, count)
                none, room, _ = timed(rounds, [program, "run", path, "0", "1"], printed)
                whole, whole_room, whole_text = timed(rounds, [program, "run", path, str(tries), str(tries)], printed)
                turns, turns_room, turns_text = timed(rounds, [program, "run", path, str(tries), str(TURN)], printed)
                assert whole_text == turns_text, (whole_text, turns_text)
                print(
                    f"{count:>6,} {kind:<10} one turn {1e9 * (whole - none) / tries:6.1f} ns a try, "
                    f"{(whole_room - room) / tries:4.1f} bytes; turns of {TURN} {1e9 * (turns - none) / tries:6.1f} ns, "
                    f"{(turns_room - room) / tries:4.1f} bytes; {(turns - none) / (whole - none):.2f} times; {whole_text.strip()}"
                )


if __name__ == "__main__":
    main()
