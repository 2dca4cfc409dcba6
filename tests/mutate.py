#!/usr/bin/env python3
"""Runs the built program on mutated files, words and kept jobs, over all commands, and holds each end to docs/FORMATS.md.

usage: tests/mutate.py [--seed N] [--runs N] [--cases FOLDER] [--program PATH] [--found FOLDER] [--only KIND..] [--seconds S]

What is mutated, one to three times a run: the files of `coins`, `fund`, `check`, `desk`, `wide`, `share`, `sweep` and `settle`, the
report and LOG of `check`, report and transaction of `settle`, the script of `desk`, the words of any command, and what `resume` and `fund .. JOB` find in the job file: its saved text, its parts,
its tables, and its bytes with those of its log. One run in ten is of a job, and `bump` are runs of requests that replace a payment:
those of harness/bumps.py too. They begin with the stored requests of
`files` in crates/rows_cases and the example, and with what the program makes of them; with --cases FOLDER also with those of the
folders fund, bump, check, resume and desk in it, and wide, share, sweep and settle where they are there. Each of these has a folder
for each case, with wallet.json, blocks.dat, request.json and, by its command, report and log, report and tx, script with the files that
it names, or N.saved and N.part-M of kept jobs.

Each end is held to this (harness/ends.py):

- the status is one of the command's, and what is printed has the form of that status, each fault line included
- `fault usage` comes exactly where the words are no command; `fault read` where that file isn't there; a limit of bytes exactly
  where a file is longer
- nothing is on the standard error; a run takes no more than a second, or what --seconds says, and one more for each million tries
- no file changed but LOG, on status 0 and 11 of `fund`, `resume`, `wide` and `share`, and then it is a whole log
- no job changed but the named one on status 10, and that as its report says; the others are as they were. A job file that SQLite
  finds unsound, or that has other tables, is refused where it is needed
- a job is refused for its saved text, its tries and its parts exactly as pages/kept_jobs.py tells, and for its sections and its
  position exactly as pages/resumes.py tells
- `fund` and `resume` come to what pages/runs.py finds try by try, to the last byte of report and LOG: long walks apart
- `wide`, `share` and `sweep` come to what pages/further.py finds, to the last byte of report and LOG, and each section of LOG is accepted:
  long walks apart. `settle` comes to what pages/settlings.py finds
- `resume` says exhausted, drawn or none only where `fund` of the same files, with tries enough, says so in the same report but
  for its tries; and `check` accepts it with LOG but for its tries. It accepts all that `fund` says
- a job that `fund` kept comes, step by step, to what one `fund` with all these tries comes to, byte for byte
- a desk's replies go by pages/replies.py
- of one end in four, `coins` refuses wallet and blocks by the same line, or lists them
- wallet, blocks and request are refused for the first of their faults, as pages/input_faults.py finds it, and only then. So is a
  payment that can't be replaced or made, as pages/replacements.py tells; and `coins` lists what pages/answers.py finds
- pages/answers.py says the same of one payment in four, pages/verdicts.py of each report and pages/desk.py of each script, where
  they can judge it: they know the pages alone. The first job of a desk is funded as `fund` funds it

A run that ends otherwise is told with its seed and number, and its files are written to the folder of --found. Build the program
first, by `rt run -- coins data/wallet.json data/blocks.dat` in crates/fund_cli, which leaves it in out/."""

import argparse
import collections
import pathlib
import random
import signal
import sys
import tempfile

from harness import bumps, mutations
from harness.cases import FUND, FURTHER, THREE, Cases, with_members
from harness.ends import Judge
from harness.running import Place
from lib.programs import FUND_CLI
from pages.kept_jobs import BESIDE, NAME

KINDS = {"fund": 30, "bump": 6, "coins": 6, "keep": 2, "check": 24, "desk": 14, "words": 4, "work": 4, "resume": 8, "job file": 2, "wide": 6, "share": 8,
         "sweep": 6, "settle": 10}
WORDS = {"coins": ["coins", *THREE[:2]], "fund": FUND, "keep": [*FUND, "job-1"], "resume": ["resume", *FUND[1:], "job-1"],
         "check": ["check", *THREE, "report", "log"], "desk": ["desk", *THREE[:2], "script"],
         "wide": ["wide", *FUND[1:]], "share": ["share", *FUND[1:]], "sweep": ["sweep", *THREE], "settle": ["settle", *FURTHER["settle"]]}
OTHER = (b"of another job", {0: b"its part", 7: b"another"})
HEADS = ("accepted", "funded", "none", "unfinished", "tip", "work", "shared", "swept", "settled")
PADDED = {"wallet.json": 16_777_216, "request.json": 1_048_576, "script": 16_777_216, "tx": 1_048_576}
STATEMENTS = ("CREATE TABLE more (a)", "CREATE INDEX more ON part (bytes)", "CREATE VIEW more AS SELECT 1", "DROP TABLE part",
              "DROP TABLE job", "ALTER TABLE job ADD COLUMN more BLOB", "ALTER TABLE job RENAME TO jobs",
              "PRAGMA journal_mode=DELETE", "PRAGMA user_version=7", "PRAGMA application_id=7", "VACUUM",
              "CREATE TRIGGER more AFTER INSERT ON job BEGIN SELECT 1; END")


class Mutants:
    """Makes the runs: words, files, jobs, statements on the job file, and what spoils its bytes."""

    def __init__(self, rng, cases):
        self.rng, self.cases, self.replacing = rng, cases, cases.bumps()

    def make(self, kind):
        make = getattr(self, kind.replace(" ", "_"))
        return make()

    def changed(self, files, names):
        """The files, with one to three mutations of these."""
        files, rng = dict(files), self.rng
        for _ in range(rng.choice((1, 1, 1, 1, 2, 3))):
            name = rng.choice([name for name in names if name in files] or list(files))
            files[name] = self.mutated(name, files[name])
        if rng.random() < 0.0005:
            name = rng.choice([name for name in files if name in PADDED])
            files[name] = files[name].ljust(PADDED[name] + rng.randrange(2))
        return files

    def mutated(self, name, data):
        rng = self.rng
        if name == "report":
            return mutations.mutate_report(rng, data)
        if name == "log":
            return mutations.mutate_log(rng, data)
        if name == "script":
            return mutations.mutate_script(rng, data)
        if name == "tx":
            return mutations.mutate_tx(rng, data)
        kind = 1.0 if name == "blocks.dat" else rng.random()
        if kind < 0.6:
            return mutations.mutate_gently(rng, name, data)
        return mutations.mutate_json(rng, data) if kind < 0.9 else mutations.mutate_bytes(rng, data)

    def coins(self):
        if self.rng.random() < 0.4:
            return WORDS["coins"], self.waiting()
        return WORDS["coins"], self.changed(self.rng.choice(self.cases.payments), THREE[:1] * 2 + THREE[1:2])

    def fund(self):
        return WORDS["fund"], self.changed(self.rng.choice(self.cases.payments), THREE[:1] * 2 + THREE[1:] + THREE[2:])

    def bump(self):
        """Of a request that replaces a payment: its files, its report or its job."""
        rng, cases = self.rng, self.replacing
        if rng.random() < 0.2:
            return Mutants(rng, cases).make("check" if rng.random() < 0.6 or not cases.jobs else "resume")
        files = self.waiting()
        return WORDS["fund"], self.changed(files, THREE[:1] * 2 + THREE[1:] + THREE[2:]) if rng.random() < 0.3 else files

    def waiting(self):
        """Files with payments that wait: by chance, or stored ones; with up to three changes of harness/bumps.py."""
        rng = self.rng
        files = bumps.case(rng) if rng.random() < 0.5 else rng.choice(self.replacing.payments)
        for _ in range(rng.choice((0, 1, 1, 2, 3))):
            files = bumps.changed(rng, files)
        return files

    def keep(self):
        files, job = self.rng.choice(self.cases.jobs)
        if self.rng.random() < 0.7:
            files = self.changed(files, THREE[2:])
        jobs = self.rng.choice(({}, {"job-1": job}, {"job-1": mutations.mutate_job(self.rng, job, [])}))
        return WORDS["keep"], files, {**jobs, "other": OTHER}

    def check(self):
        return WORDS["check"], self.changed(self.rng.choice(self.cases.reports), THREE + ("report", "log") * 4)

    def desk(self):
        files = self.rng.choice(self.cases.desks)
        names = [name for name in files if name not in ("script", "blocks.dat")]
        return WORDS["desk"], self.changed(files, names + ["script"] * 4 + ["blocks.dat"])

    def words(self):
        words = mutations.mutate_words(self.rng, self.rng.choice(list(WORDS.values()) + [["work", "3", "9"]]))
        return words, self.rng.choice(self.cases.desks + self.cases.reports), {"other": OTHER}

    def work(self):
        rng = self.rng
        number, count = rng.choice((rng.randrange(99), rng.randrange(2**63), 2**63 - 1)), rng.choice((1, 2, 5, 16, 60))
        words = ["work", str(number), str(count)]
        return (mutations.mutate_words(rng, words) if rng.random() < 0.2 else words), {}

    def wide(self):
        return self.beside_funding("wide", method="changeless")

    def share(self):
        return self.beside_funding("share", method="weight")

    def sweep(self):
        return self.beside_funding("sweep")

    def beside_funding(self, verb, **members):
        """Files of the command, or of a payment that is asked for so; mostly mutated."""
        rng = self.rng
        files = rng.choice(self.cases.further[verb])
        if rng.random() < 0.4:
            files = with_members(rng.choice(self.cases.payments), **members) or files
        if rng.random() < 0.2:
            files = with_members(files, tries=rng.choice((1, 2, 3, 5, 9, 30))) or files
        return WORDS[verb], self.changed(files, THREE[:1] * 2 + THREE[1:] + THREE[2:]) if rng.random() < 0.8 else files

    def settle(self):
        files = self.rng.choice(self.cases.further["settle"])
        names = ("wallet.json", "request.json") + ("report",) * 3 + ("tx",) * 3
        return WORDS["settle"], self.changed(files, names) if self.rng.random() < 0.8 else files

    def resume(self):
        rng, (files, job) = self.rng, self.rng.choice(self.cases.jobs)
        others = [other for other_files, other in self.cases.jobs if other_files == files]
        job = mutations.mutate_job(rng, job, others)
        if rng.random() < 0.1:
            files = self.changed(files, THREE)
        return WORDS["resume"], files, {"job-1": job, "other": OTHER}

    def job_file(self):
        rng, (files, job) = self.rng, self.rng.choice(self.cases.jobs)
        words = WORDS[rng.choice(("resume", "resume", "keep"))]
        jobs = {"job-1": job, "other": OTHER}
        if rng.random() < 0.3:
            return words, files, jobs, [rng.choice(STATEMENTS)]
        return words, files, jobs, [], self.spoil

    def spoil(self, folder):
        """Mutates the bytes of the job file, near its begin, its end or anywhere, or puts a log beside it."""
        rng, path = self.rng, pathlib.Path(folder) / NAME
        data = path.read_bytes()
        if rng.random() < 0.2:
            logs = (b"", b"7", rng.randbytes(41), b"7\x7f\x06\x82\x00" + rng.randbytes(5000))
            (path.parent / BESIDE).write_bytes(rng.choice(logs))
        start = rng.choice((0, 0, 4096 * rng.randrange(len(data) // 4096), rng.randrange(len(data))))
        end = start + rng.choice((100, 4096))
        for _ in range(rng.choice((1, 1, 2, 5))):
            data = data[:start] + mutations.mutate_bytes(rng, data[start:end]) + data[end:]
        path.write_bytes(data)


def tell_wrong(end, fault, seed, run, found):
    print(f"run {run} of seed {seed}, {' '.join(end.words)}: {fault}\n  status {end.status}: {end.printed[:300]!r}", flush=True)
    if found is not None:
        folder = found / f"{seed}-{run}"
        folder.mkdir(parents=True, exist_ok=True)
        for name, data in end.given.items():
            (folder / name).write_bytes(data)
        told = f"{end.words}\n{fault}\nstatus {end.status}\n{end.printed!r}\n{end.told!r}\nkept: {end.kept!r}\n"
        (folder / "found.txt").write_text(told)


def head_of(printed):
    """The words with which a text begins, but for numbers, names and coins."""
    words = printed.split(b"\n", 1)[0].decode(errors="replace").split(" ")
    if words[0] != "fault":
        return words[0] if words[0] in HEADS else "replies"
    return " ".join([word for word in words if word.isalpha()][:5]) if words[1] != "read" else "fault read"


def asked_for():
    words = argparse.ArgumentParser(description="Runs the program on mutated files, words and jobs.")
    words.add_argument("--seed", type=int, default=1)
    words.add_argument("--runs", type=int, default=20000)
    words.add_argument("--cases", type=pathlib.Path)
    words.add_argument("--program", type=pathlib.Path, default=FUND_CLI)
    words.add_argument("--found", type=pathlib.Path)
    words.add_argument("--only", nargs="*", choices=list(KINDS), default=list(KINDS))
    words.add_argument("--seconds", type=float, default=1.0)
    return words.parse_args()


def try_all(asked, place, judge):
    """Makes the runs, and counts their ends; an interrupt or a SIGTERM ends them early."""
    rng, ends, wrong, longest = random.Random(asked.seed), collections.Counter(), 0, 0.0
    cases = Cases(asked.cases)
    cases.make(rng, place, cases.payments, 100)
    cases.make(rng, place, cases.bumps().payments, 30)
    mutants = Mutants(rng, cases)
    try:
        for run in range(asked.runs):
            kind = rng.choices(asked.only, [KINDS[kind] for kind in asked.only])[0]
            end = place.run(*mutants.make(kind))
            fault = judge.wrong(end) or judge.wrong_beside(end, rng.random() < 0.25)
            longest = max(longest, end.seconds)
            if fault is not None:
                wrong += 1
                tell_wrong(end, fault, asked.seed, run, asked.found)
            ends[(kind, end.status, head_of(end.printed))] += 1
    except KeyboardInterrupt:
        print("interrupted")
    return ends, wrong, longest


def main():
    asked = asked_for()
    asked.found, asked.cases = asked.found and asked.found.resolve(), asked.cases and asked.cases.resolve()
    program = asked.program.resolve()
    signal.signal(signal.SIGTERM, signal.default_int_handler)
    with tempfile.TemporaryDirectory() as folder:
        judge = Judge(Place(folder, program), asked.seconds)
        ends, wrong, longest = try_all(asked, judge.place, judge)
    for (kind, status, head), count in sorted(ends.items()):
        print(f"{count:6} {kind}, status {status}: {head}")
    print(", ".join(f"{count} {name}" for name, count in sorted(judge.beside.items())))
    print(f"{sum(ends.values())} runs, {wrong} otherwise than they should; the longest took {longest:.3f} s of processor time")
    return wrong > 0


if __name__ == "__main__":
    sys.exit(main())
