#!/usr/bin/env python3
"""Times a command: the least processor time of several runs, and the greatest memory. For the other scripts of bench/.

    bench/timing.py RUNS STATUS FILE COMMAND..

prints the seconds and the MiB. Each run must end with STATUS; FILE has what the last one prints.

Linux counts to a process the memory of the one that started it, up to the first instruction of the program. So where memory is asked
for, /usr/bin/time starts the command, which is small; without it a small command seems to take as much as Python.
"""

import os
import sys
import tempfile
import typing

TIME = "/usr/bin/time"


class Taken(typing.NamedTuple):
    """Processor seconds, and the greatest memory in bytes."""

    seconds: float
    memory: int


def spawned(words, output, cwd):
    """The status of a command and what it used; its output goes into a file."""
    words = ["env", "-C", str(cwd), *words] if cwd else words
    new = os.O_WRONLY | os.O_CREAT | os.O_TRUNC
    child = os.posix_spawnp(words[0], words, os.environ, file_actions=[(os.POSIX_SPAWN_OPEN, 1, output, new, 0o644)])
    _, ended, used = os.wait4(child, 0)
    return os.waitstatus_to_exitcode(ended), used


def once(words, status=0, output=os.devnull, cwd=None, memory=True):
    """What one run takes, which must end with this status."""
    words = [str(word) for word in words]
    with tempfile.NamedTemporaryFile("r") as said:
        by_time = memory and os.access(TIME, os.X_OK)
        ended, used = spawned([TIME, "-q", "-o", said.name, "-f", "%M", *words] if by_time else words, output, cwd)
        kibibytes = int(said.read().split()[-1]) if by_time else used.ru_maxrss
    if ended != status:
        sys.exit(f"{' '.join(words)}: status {ended}, and {status} is due")
    return Taken(used.ru_utime + used.ru_stime, kibibytes * 1024)


def best(words, runs=3, status=0, output=os.devnull, cwd=None):
    """The least time and the greatest memory of so many runs."""
    taken = [once(words, status, output, cwd) for _ in range(runs)]
    return Taken(min(one.seconds for one in taken), max(one.memory for one in taken))


def main():
    if len(sys.argv) < 5:
        sys.exit(__doc__)
    runs, status, output, *words = sys.argv[1:]
    taken = best(words, int(runs), int(status), output)
    print(f"{taken.seconds:.4f} {taken.memory / 1048576:.1f}")


if __name__ == "__main__":
    main()
