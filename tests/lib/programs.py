"""How a built program is called, and what scripts print of what they saw. For tests/ and bench/."""

import collections
import os
import pathlib
import subprocess

TOP = pathlib.Path(__file__).resolve().parent.parent.parent
FUND_CLI = TOP / "crates" / "fund_cli" / "out" / "fund_cli"
NINELACE = TOP / "crates" / "ninelace" / "out" / "ninelace"
FUND_FILES = ("wallet.json", "blocks.dat", "request.json", "log")

# How a run ended: its status, its output, and what it wrote to the standard error.
Ended = collections.namedtuple("Ended", "status printed errors")


def called(program, words, folder, seconds=300):
    """Runs a program with these words in a folder, without an input."""
    words = [os.path.abspath(program), *map(str, words)]
    run = subprocess.run(words, cwd=folder, stdin=subprocess.DEVNULL, capture_output=True, timeout=seconds)
    return Ended(run.returncode, run.stdout, run.stderr)


def write(folder, files):
    """Puts files of these names into a folder."""
    for name, data in files.items():
        pathlib.Path(folder, name).write_bytes(data.encode() if isinstance(data, str) else data)


def read(folder, name):
    """The bytes of a file, or None where it isn't there."""
    path = pathlib.Path(folder, name)
    return path.read_bytes() if path.exists() else None


def funded(program, folder, wallet, request, blocks=b""):
    """Runs `fund` on these texts: how it ended, and the log that it wrote or None."""
    write(folder, dict(zip(FUND_FILES, (wallet, blocks, request))))
    log = pathlib.Path(folder, FUND_FILES[3])
    log.unlink(missing_ok=True)
    ended = called(program, ["fund", *FUND_FILES], folder)
    return ended, log.read_text() if log.exists() else None


def counted(ends):
    """How often each end was seen, in words."""
    return ", ".join(f"{times} {end}" for end, times in sorted(ends.items()))


def tell(what, ends):
    print(f"{what}, each as it should be: {counted(ends)}")
