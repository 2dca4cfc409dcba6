#!/usr/bin/env python3
"""Runs the built program over all commands while one call to the system fails, each in its turn, and looks at each end.

usage: tests/faults.py [--program PATH] [--kinds KIND..] [--commands NAME..] [--every N]
       tests/faults.py --people PATH [--every N]

The calls are those of KINDS, by tests/failing.c: allocations, those on files, and those on the job file; `rename` counts unlink
too. The commands are those of `commands`: listings, payments, the check of a report, a payment that is kept as a job, the going on
with a job of two coins, refusals, a desk of two jobs, a made-up wallet, and one payment each of `wide`, `share` and `sweep`, with
a refused one, and one of `settle`.

Which ends are right, by docs/FORMATS.md:

- the whole end, as without a failure: of calls that move one byte; and of a failed allocation, close, or call on the job file,
  which may come after all is done
- a failed allocation: status 7, and `fault memory` with all as before, or a first part of what is due with LOG and job as due
- a failed open, seek or read of a file that is read: status 4 with that file's name, all as before
- a failed open or write of LOG: status 5, `fault write LOG`; LOG is as before or a first part. A failed write of the output:
  status 5, a first part of what is due, LOG and job as due; where a fault line is due, its status stays
- a failed call on the job file, or a read of it that moves one byte: status 6, `fault keep`, LOG as before
- a stop before any of these calls: the output is a first part of what is due, and LOG is as before, a first part or whole

With --every N only each N-th call of a kind with more than a thousand fails: a run with a job makes some 4,000 allocations.

After each end every other file is as before, and so is every other job. What a later `resume` of the job prints, with its status
and its LOG, is what it is before the run or after a whole one, and nothing else: after a stop either, otherwise as the end says.

With --people the program is a built ninelace, and each allocation of a payment fails in its turn whose recipients stand in its words and in a
file of payments. Nobody is passed over: it pays as without a failure, or its status is 7. Only its lines `parents` and `warning`
may be missing or say that a file wasn't read again.

Build the program first, by `rt run -- coins data/wallet.json data/blocks.dat` in crates/fund_cli, which leaves it in out/. It
needs a C compiler."""

import argparse
import collections
import pathlib
import subprocess
import sys
import tempfile
import typing

from harness.cases import EXAMPLE, FUND, FURTHER, DESKS, THREE, with_members
from lib.programs import FUND_CLI
from lib.stored_rows import commands_of, files_of
from pages.kept_jobs import BESIDE, NAME, read_jobs, write_jobs

OLD_LOG = b"what stood in the log before\n"
OTHER = {"other": (b"of another job", {0: b"its part"})}
KEEPER = ("pread", "pwrite", "sync", "truncate", "lock", "stat", "mode", "random", "rename")
SHORT = ("short-read", "short-write", "short-pread", "short-pwrite")
KINDS = ("alloc", "open", "seek", "read", "write", "close", *KEEPER, *SHORT, "stop")
# kinds of which a failure may change nothing
IDLE = ("alloc", "close", *KEEPER, *SHORT)
RESUME = ["resume", *FUND[1:], "job-1"]


class Command(typing.NamedTuple):
    """Words, the files before, and the kept jobs before; None where there is no job file."""

    words: list
    files: dict
    jobs: typing.Any = None


class End(typing.NamedTuple):
    """Status, output, LOG, what a later `resume` gives, and whether all else is as before."""

    status: int
    printed: bytes
    log: bytes
    later: typing.Any
    rest: bool


class Bench:
    """A folder in which commands run with the library that lets calls fail."""

    def __init__(self, folder, program):
        self.program, self.folder = str(program), folder / "run"
        self.files, self.first = None, None
        self.library, self.count = folder / "failing.so", folder / "count"
        self.folder.mkdir()
        source = pathlib.Path(__file__).parent / "failing.c"
        subprocess.run(["cc", "-O1", "-w", "-shared", "-fPIC", "-o", self.library, source], check=True)

    def prepare(self, command):
        """Keeps the bytes of all files that stand there before the command."""
        self.clear({})
        if command.jobs is not None:
            write_jobs(self.folder, {**command.jobs, **OTHER})
        self.files = {"LOG": OLD_LOG, **command.files, **self.left()}
        self.clear(self.files)
        self.first = self.later() if is_kept(command) else None

    def clear(self, files):
        for path in self.folder.iterdir():
            path.unlink()
        for name, data in files.items():
            (self.folder / name).write_bytes(data)

    def left(self):
        return {path.name: path.read_bytes() for path in self.folder.iterdir()}

    def spawn(self, words, kind, at, silent=True):
        self.count.write_bytes(b"0")
        env = {"LD_PRELOAD": str(self.library), "FAULT_KIND": kind, "FAULT_AT": str(at), "FAULT_COUNT": str(self.count)}
        done = subprocess.run([self.program, *words], cwd=self.folder, env=env, capture_output=True, timeout=120)
        assert not (silent and done.stderr), done.stderr
        return done.returncode, done.stdout

    def run(self, command, kind="none", at=-1):
        """The end of the command, and how many calls of the kind were made."""
        self.clear(self.files)
        status, printed = self.spawn(command.words, kind, at)
        made = int(self.count.read_bytes())
        left = self.left()
        log = left["LOG"]
        if {**left, "LOG": b""} == {**self.files, "LOG": b""}:
            return End(status, printed, log, self.first, True), made
        rest = {name: data for name, data in left.items() if name not in ("LOG", NAME, BESIDE)} == command.files
        if not is_kept(command):
            return End(status, printed, log, None, False), made
        other = (read_jobs(self.folder)[0] or {}).get("other")
        kept = other == (OTHER["other"] if command.jobs is not None else None)
        return End(status, printed, log, self.later(), rest and kept), made

    def later(self):
        """What `resume` gives now: status, output, and LOG."""
        (self.folder / "LOG").write_bytes(OLD_LOG)
        return (*self.spawn(RESUME, "none", -1), (self.folder / "LOG").read_bytes())


def is_kept(command):
    """Whether the command names a job."""
    return command.words[0] in ("fund", "resume") and len(command.words) == 6


# ---- the commands


STORED = files_of("files")
STORED_PAYS = files_of("files", "pay")


def stored(name):
    return {part: STORED[f"{name}.{part}"] for part in THREE}


def case_of(command, name):
    """The files of a stored case of this name, of a command beside funding."""
    return next(step.files for step in commands_of(command) if step.columns[0] == f"{name}: ")


def example(**members):
    return with_members({part: (EXAMPLE / part).read_bytes() for part in THREE}, **members)


def commands(bench):
    """Each command by its name. The report of `check` and the jobs of `resume` are what the program makes."""
    two, whole = example(tries=1, when_unfinished="stop"), example()
    made = Command(FUND, whole)
    bench.prepare(made)
    end, _ = bench.run(made)
    checked = {**whole, "report": end.printed, "log": end.log}
    jobs = []
    for words in ([*FUND, "job-1"], RESUME):
        command = Command(words, two, {"job-1": jobs[-1]} if jobs else {})
        bench.prepare(command)
        bench.clear(bench.files)
        bench.spawn(words, "none", -1)
        jobs.append(read_jobs(bench.folder)[0]["job-1"])
    return {
        "coins": Command(["coins", *THREE[:2]], stored("exact-coin")),
        "coins of a replacement": Command(["coins", *THREE[:2]], stored("replacement")),
        "fund": Command(FUND, stored("exact-coin")),
        "fund by auto": Command(FUND, stored("auto")),
        "fund with change": Command(FUND, stored("least-change")),
        "check": Command(["check", *THREE, "report", "log"], checked),
        "fund, kept anew": Command([*FUND, "job-1"], two),
        "fund, kept over a job": Command([*FUND, "job-1"], two, {"job-1": jobs[1]}),
        "resume, unfinished": Command(RESUME, two, {"job-1": jobs[0]}),
        "resume, finished": Command(RESUME, two, {"job-1": jobs[1]}),
        "fund, refused": Command(FUND, {**whole, "wallet.json": b"{}"}),
        "check, refused": Command(["check", *THREE, "report", "log"], {**checked, "log": end.log.replace(b"SS\n", b"S\n")}),
        "resume, refused": Command(RESUME, two, {"job-1": (jobs[1][0][:-1], jobs[1][1])}),
        "desk": Command(["desk", *THREE[:2], "script"], {**whole, "script": DESKS[1]}),
        "work": Command(["work", "1", "5"], {}),
        "wide": Command(["wide", *FUND[1:]], case_of("wide", "worked")),
        "share": Command(["share", *FUND[1:]], case_of("share", "worked-three")),
        "share, refused": Command(["share", *FUND[1:]], case_of("share", "worked-dust")),
        "sweep": Command(["sweep", *THREE], case_of("sweep", "worked")),
        "settle": Command(["settle", *FURTHER["settle"]], case_of("settle", "worked-71")),
    }


# ---- which ends are right


def is_right(kind, command, before, whole, end):
    """Whether a run with one failure ends as it may, by what is there before and what the run without one did."""
    if not end.rest:
        return False
    if end == whole and kind in IDLE + ("stop",):
        return True
    if kind == "stop":
        return is_stopped(before, whole, end)
    if kind == "write" and whole.printed.startswith(b"fault "):
        return end.status == whole.status and is_part(end, whole)
    judges = {7: is_without_memory, 4: is_unread, 5: is_unwritten, 6: is_unkept}
    return end.status in judges and judges[end.status](kind, command, before, whole, end)


def is_part(end, whole):
    """Whether less than all was printed, and all else is as due."""
    return whole.printed.startswith(end.printed) and end.printed != whole.printed and end[2:] == whole[2:]


def is_as_before(before, end):
    return end.log == OLD_LOG and end.later == before


def is_without_memory(kind, command, before, whole, end):
    if kind != "alloc":
        return False
    if is_part(end, whole):
        return True
    begun = command.words[0] == "desk" and whole.printed.startswith(end.printed)
    return (end.printed in (b"fault memory\n", b"") or begun) and is_as_before(before, end)


def is_unread(kind, command, before, whole, end):
    names = {b"fault read " + name.encode() + b"\n" for name in command.files}
    begun = command.words[0] == "desk" and end.printed.endswith(b"\n") and whole.printed.startswith(end.printed)
    return kind in ("open", "seek", "read") and (end.printed in names or begun) and is_as_before(before, end)


def is_unwritten(kind, command, before, whole, end):
    if kind not in ("open", "write", "close"):
        return False
    if is_part(end, whole):
        return True
    begun = end.log == OLD_LOG or whole.log.startswith(end.log)
    return whole.log != OLD_LOG and end.printed == b"fault write LOG\n" and begun and end.later == before


def is_unkept(kind, command, before, whole, end):
    if kind not in KEEPER + ("open", "short-pread") or not is_kept(command):
        return False
    return end.printed == b"fault keep\n" and end.log == OLD_LOG and end.later in (before, whole.later)


def is_stopped(before, whole, end):
    begun = end.log == OLD_LOG or whole.log.startswith(end.log)
    return end.status == -9 and whole.printed.startswith(end.printed) and begun and end.later in (before, whole.later)


def try_all(bench, name, command, kinds, every):
    """Lets each call of these kinds fail in its turn; how many ends were wrong."""
    bench.prepare(command)
    before, (whole, _), wrong = bench.first, bench.run(command), 0
    for kind in kinds:
        _, made = bench.run(command, kind)
        ends = collections.Counter()
        for at in range(1, made + 1, every if made > 1000 else 1):
            end, _ = bench.run(command, kind, at)
            told = " and kept all the same" if end.status == 6 and end.later == whole.later != before else ""
            ends[f"with status {end.status}{told}" if end != whole else "whole"] += 1
            if not is_right(kind, command, before, whole, end):
                wrong += 1
                print(f"wrong: {name}, {kind} {at}: {end}")
        told = ", ".join(f"{number} {how}" for how, number in sorted(ends.items()))
        print(f"{name}, {kind}: {made} calls{': ' if told else ''}{told}", flush=True)
    return wrong


# ---- a payment as people ask for it


PEOPLE = "pay --wallet wallet.json --blocks blocks.dat --to-script 0014%s=0.01 --pay-file pay.csv --fee-rate 12 --seed %s --psbt new.psbt"
LISTED = b"bc1qhwamhwamhwamhwamhwamhwamhwamhwame6jz2r,0.05\n"


def told_lines(printed):
    """What is paid, without the lines for which a file is read once more."""
    return [line for line in printed.split(b"\n") if not line.startswith((b"parents", b"warning"))]


def try_people(bench, every):
    """Lets each allocation fail of a payment to the recipients of words and of a file; how many ends were wrong."""
    pays = STORED_PAYS
    files = {"wallet.json": pays["tenth.wallet.json"], "blocks.dat": pays["tenth.blocks.dat"], "pay.csv": LISTED}
    words, wrong = (PEOPLE % ("bb" * 20, "33" * 32)).split(), 0

    def run(kind, at):
        bench.clear(files)
        status, printed = bench.spawn(words, kind, at, silent=False)
        new = {name: data for name, data in bench.left().items() if files.get(name) != data}
        return status, printed, new

    status, printed, new = run("none", -1)
    assert status == 0 and b"5000000 sat" in printed and list(new) == ["new.psbt"], (status, printed)
    run("alloc", -1)
    made, ends = int(bench.count.read_bytes()), collections.Counter()
    for at in range(1, made + 1, every if made > 1000 else 1):
        end = run("alloc", at)
        paid = end[0] == 0 and told_lines(end[1]) == told_lines(printed) and end[2] == new
        short = end[0] == 7 and end[2] in ({}, new)
        ends[f"with status {end[0]}"] += 1
        if not paid and not short:
            wrong += 1
            print(f"wrong: pay, alloc {at}: {end}")
    print(f"pay, alloc: {made} calls: " + ", ".join(f"{number} {how}" for how, number in sorted(ends.items())), flush=True)
    return wrong


def main():
    parser = argparse.ArgumentParser(description="Lets calls to the system fail one by one.")
    parser.add_argument("--program", type=pathlib.Path, default=FUND_CLI)
    parser.add_argument("--kinds", nargs="*", choices=KINDS, default=KINDS)
    parser.add_argument("--commands", nargs="*")
    parser.add_argument("--people", type=pathlib.Path)
    parser.add_argument("--every", type=int, default=1)
    words = parser.parse_args()
    program = (words.people or words.program).resolve()
    with tempfile.TemporaryDirectory() as folder:
        bench = Bench(pathlib.Path(folder), program)
        if words.people:
            wrong = try_people(bench, words.every)
            print(f"{wrong} wrong")
            sys.exit(wrong > 0)
        tried = [(name, command) for name, command in commands(bench).items() if words.commands is None or name in words.commands]
        wrong = sum(try_all(bench, name, command, words.kinds, words.every) for name, command in tried)
    print(f"{wrong} wrong")
    sys.exit(wrong > 0)


if __name__ == "__main__":
    main()
