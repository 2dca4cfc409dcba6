"""The files from which tests/mutate.py begins: stored ones of this repository, those of a folder of cases, and what the program
makes of them. Nothing that is made is taken as due: it is there to be mutated."""

import json
import re

from lib.programs import TOP
from lib.stored_rows import commands_of
from lib.stored_rows import files_of as stored_files
from pages.kept_jobs import read_jobs

# scripts of made-up wallets, each with the weight of an input that spends it
SCRIPTS = [(b"\x00\x14" + b"\x11" * 20, 272), (b"\x51\x20" + b"\x22" * 32, 230), (b"\x76\xa9\x14" + b"\x33" * 20 + b"\x88\xac", 593)]
EXAMPLE = TOP / "crates" / "fund_cli" / "data"
THREE = ("wallet.json", "blocks.dat", "request.json")
FUND = ["fund", *THREE, "LOG"]
FURTHER = {"wide": THREE, "share": THREE, "sweep": THREE, "settle": ("wallet.json", "request.json", "report", "tx")}
# scripts of desks
DESKS = (
    b"open A request.json\nturn A 1\nturn A 3\nturn A 100000\ncommit A\nopen B request.json\nturn B 100000\ncommit B\n",
    b"open A request.json\nopen B request.json\nturn A 50\nturn B 50\nturn A 100000\nturn B 100000\ncommit B\ncommit A\nclose A\n",
)


class Cases:
    """For each command the files that it takes, by their names; of a job also what is kept."""

    def __init__(self, folder):
        self.payments = stored_payments()
        self.reports, self.jobs, self.desks = [], [], []
        self.further = {verb: [step.files for step in commands_of(verb)] for verb in FURTHER}
        if folder is not None:
            for name in ("fund", "bump"):
                self.payments += [files_of(case, THREE) for case in sorted((folder / name).iterdir())]
            self.reports = [files_of(case, THREE + ("report", "log")) for case in sorted((folder / "check").iterdir())]
            self.jobs = [job for case in sorted((folder / "resume").iterdir()) for job in jobs_of(case)]
            for case in sorted((folder / "desk").iterdir()):
                names = [path.name for path in case.iterdir() if path.name not in ("status", "stdout")]
                self.desks.append(files_of(case, names))
            for verb, names in FURTHER.items():
                if (folder / verb).exists():
                    self.further[verb] += [files_of(case, names) for case in sorted((folder / verb).iterdir())]

    def bumps(self):
        """Those whose request replaces a payment."""
        found = Cases.__new__(Cases)
        found.payments = list(filter(is_bump, self.payments))
        found.reports = list(filter(is_bump, self.reports))
        found.jobs = [job for job in self.jobs if is_bump(job[0])]
        return found

    def make(self, rng, place, payments, number):
        """Adds reports, jobs and desks that the program makes of so many of these payments."""
        for _ in range(number):
            files = rng.choice(payments)
            self.desks.append({**files, "script": rng.choice(DESKS)})
            end = place.run(FUND, files)
            tries = [1, 2, 3, 8, 60]
            if end.status in (0, 11):
                self.reports.append({**files, "report": end.printed, "log": end.files["LOG"]})
                made = int(re.search(rb"\ntries ([0-9]+)\n", end.printed)[1])
                tries = [1, 2, 5, max(1, made // 2), max(1, made // 2 + 1), max(1, made - 1)]
            stopped = with_members(files, tries=rng.choice(tries), when_unfinished="stop")
            if stopped is None:
                continue
            end = place.run([*FUND, "job-1"], stopped)
            if end.status == 10:
                self.jobs.append((stopped, read_jobs(place.folder)[0]["job-1"]))


def is_bump(files):
    try:
        return "bump" in json.loads(files["request.json"])
    except (ValueError, TypeError, KeyError):
        return False


def with_members(files, **members):
    """The files, the request having these members too; None where it is no object."""
    try:
        request = json.loads(files["request.json"])
    except ValueError:
        return None
    if not isinstance(request, dict):
        return None
    return {**files, "request.json": json.dumps({**request, **members}).encode()}


def files_of(folder, names):
    return {name: (folder / name).read_bytes() for name in names if (folder / name).exists()}


def stored_payments():
    stored = stored_files("files", "pay")
    names = sorted(name.removesuffix(".request.json") for name in stored if name.endswith(".request.json"))
    found = [{part: stored[f"{name}.{part}"] for part in THREE} for name in names]
    return found + [files_of(EXAMPLE, THREE)] * 5


def jobs_of(case):
    """The jobs that are kept before or after a step of this case, each with the files of the case."""
    files = files_of(case, THREE)
    for path in sorted(case.glob("*.saved")):
        parts = {}
        for part in case.glob(path.name.removesuffix("saved") + "part-*"):
            parts[int(re.search("[0-9]+$", part.name)[0])] = part.read_bytes()
        yield files, (path.read_bytes(), parts)
