#!/usr/bin/env python3
"""Runs the checks outside the gate, and ends with a table: what passed, what failed, and what was left out and why.

    tests/run.py [--quick | --all] [--programs FOLDER] [NAME ..]

--quick, which is also meant where nothing is said, needs no built program and takes about a minute. --all builds fund_cli and ninelace
once, and runs each check that the machine's packages allow. With NAMEs it runs these checks alone, among them those that no flag
asks for. FOLDER has the two programs already, as FOLDER/NAME or as FOLDER/NAME/out/NAME: the folder crates/ after a run of `rt ci`. The
status is 0 where none failed.
"""
import argparse
import pathlib
import shutil
import subprocess
import sys
import time
import typing

from lib.programs import TOP

DEBIAN = "/usr/bin/python3"  # the Python for which Debian's packages are installed
LONGEST = 7200  # seconds of a check
WIDTH = 100  # letters of what a check said last


class Check(typing.NamedTuple):
    """A check: its name, its words, what it needs, and whether --quick or --all asks for it. In words FUND_CLI and NINELACE are the
    programs."""

    name: str
    words: str
    needs: tuple
    when: str


PYTHON = "python3 tests/"
CHECKS = [
    Check("proved", "tests/proved.sh", (), "quick"),
    Check("docs", PYTHON + "docs.py", (), "quick"),
    Check("troubles", PYTHON + "troubles.py", (), "quick"),
    Check("stored", PYTHON + "answers.py stored", (), "quick"),
    Check("further", PYTHON + "further.py", (), "quick"),
    Check("desk", PYTHON + "desk.py", (), "quick"),
    Check("verdicts", PYTHON + "verdicts.py", (), "quick"),
    Check("settlings", PYTHON + "settlings.py", (), "quick"),
    Check("settled", PYTHON + "settled.py", (), "quick"),
    Check("packed", PYTHON + "packed.py", (), "quick"),
    Check("completions", PYTHON + "completions.py", (), "quick"),
    Check("core_files", PYTHON + "core_files.py", (), "quick"),
    Check("core_coins", PYTHON + "core_files.py FUND_CLI NINELACE", ("fund_cli", "ninelace"), "all"),
    Check("answers", PYTHON + "answers.py FUND_CLI 500 1", ("fund_cli",), "all"),
    Check("people", PYTHON + "people.py NINELACE", ("ninelace",), "all"),
    Check("mutate", PYTHON + "mutate.py --program FUND_CLI --seed 1 --runs 2000 --seconds 5", ("fund_cli",), "all"),
    Check("faults", PYTHON + "faults.py --program FUND_CLI --every 50", ("fund_cli", "cc"), "all"),
    Check("faults_people", PYTHON + "faults.py --people NINELACE --every 20", ("ninelace", "cc"), "all"),
    Check("signers", "env NINELACE=NINELACE " + DEBIAN + " tests/signers.py FUND_CLI 50 1", ("fund_cli", "ninelace", "electrum", "bitcoinlib"), "all"),
    Check("devices", DEBIAN + " tests/devices.py FUND_CLI NINELACE 20 1", ("fund_cli", "ninelace", "electrum", "bitcoinlib"), "all"),
    Check("electrum_keys", DEBIAN + " tests/electrum_keys.py", ("electrum",), "all"),
    Check("library", PYTHON + "library.py --every 10 --fuzz 1000 --program FUND_CLI", ("fund_cli", "library"), "all"),
    Check("edits", "tests/edits.sh --gate", ("rt",), "name"),
]
PACKAGES = {"electrum": ("electrum", "python3-electrum"), "bitcoinlib": ("bitcoin", "python3-bitcoinlib")}
LIBRARY = TOP / "c" / "out" / "libninelace.so"
BUILT = {"fund_cli": "rt run -- coins data/wallet.json data/blocks.dat", "ninelace": "rt run -- coins data/wallet.json data/blocks.dat"}


class Result(typing.NamedTuple):
    name: str
    end: str
    seconds: float
    said: str


def asked_for():
    words = argparse.ArgumentParser(description="Runs the checks outside the gate.")
    which = words.add_mutually_exclusive_group()
    which.add_argument("--quick", action="store_true")
    which.add_argument("--all", action="store_true")
    words.add_argument("--programs", type=pathlib.Path)
    words.add_argument("names", nargs="*", metavar="NAME", help=", ".join(check.name for check in CHECKS))
    asked = words.parse_args()
    for name in asked.names:
        if name not in [check.name for check in CHECKS]:
            words.error(f"no check {name}")
    return asked


def chosen(asked):
    """The checks that are asked for, and those that are left out with the cause."""
    if asked.names:
        return [check for check in CHECKS if check.name in asked.names], []
    takes = ("quick", "all") if asked.all else ("quick",)
    left = [(check, "ask for it by its name: it proves for hours") for check in CHECKS if check.when == "name"]
    left += [(check, "only with --all") for check in CHECKS if check.when == "all" and not asked.all]
    return [check for check in CHECKS if check.when in takes], left


def built(name, folder):
    """The path of a program, and why there is none: it is built where no folder is said."""
    if folder is not None:
        paths = [path for path in (folder / name, folder / name / "out" / name) if path.is_file()]
        return (paths[0].resolve(), "") if paths else (None, f"no {name} in {folder}")
    if shutil.which("rt") is None:
        return None, "no rt, and no --programs"
    print(f"builds {name}: {BUILT[name]}", flush=True)
    run = subprocess.run(BUILT[name].split(), cwd=TOP / "crates" / name, capture_output=True, text=True)
    path = TOP / "crates" / name / "out" / name
    return (path, "") if run.returncode == 0 and path.is_file() else (None, f"{name} wasn't built: {last_line(run.stdout + run.stderr)}")


def lacks(need, programs):
    """Why a need isn't met; nothing where it is."""
    if need in BUILT:
        return programs[need][1]
    if need == "library":
        return "" if LIBRARY.is_file() else "no c/out/libninelace.so: rt lib in crates/ninelace_c, then c/build.sh"
    if need in PACKAGES:
        module, package = PACKAGES[need]
        there = pathlib.Path(DEBIAN).exists() and subprocess.run([DEBIAN, "-c", f"import {module}"], capture_output=True).returncode == 0
        return "" if there else f"no package {package}"
    return "" if shutil.which(need) else f"no {need}"


def last_line(text):
    lines = [line for line in text.splitlines() if line.strip()]
    return lines[-1][:WIDTH] if lines else ""


def run_one(check, programs):
    """Runs a check, and prints what it said where it failed."""
    words = check.words.split()
    for name in BUILT:
        words = [word.removesuffix(name.upper()) + str(programs[name][0]) if word.endswith(name.upper()) else word for word in words]
    start = time.monotonic()
    try:
        run = subprocess.run(words, cwd=TOP, capture_output=True, text=True, timeout=LONGEST)
        end, text = "passed" if run.returncode == 0 else "failed", run.stdout + run.stderr
    except subprocess.TimeoutExpired:
        end, text = "failed", f"it took more than {LONGEST} seconds"
    if end == "failed":
        print(f"{check.name}: {' '.join(words)}\n" + "\n".join(text.splitlines()[-30:]), flush=True)
    return Result(check.name, end, time.monotonic() - start, last_line(text))


def main():
    asked = asked_for()
    checks, left = chosen(asked)
    needed = {need for check in checks for need in check.needs if need in BUILT}
    programs = {name: built(name, asked.programs) for name in BUILT if name in needed}
    programs.update({name: (None, "") for name in BUILT if name not in needed})
    results = []
    for check in checks:
        why = next(filter(None, (lacks(need, programs) for need in check.needs)), "")
        results.append(Result(check.name, "left out", 0, why) if why else run_one(check, programs))
        print(f"{results[-1].name:13} {results[-1].end}", flush=True)
    results += [Result(check.name, "left out", 0, why) for check, why in left]
    print(f"\n{'check':13} {'end':9} {'seconds':>7}  what it said last, or why it was left out")
    for name, end, seconds, said in results:
        print(f"{name:13} {end:9} {f'{seconds:.0f}' if end != 'left out' else '':>7}  {said}")
    counts = [sum(result.end == end for result in results) for end in ("passed", "failed", "left out")]
    print("{} passed, {} failed, {} left out".format(*counts))
    return 1 if counts[1] else 0


if __name__ == "__main__":
    sys.exit(main())
