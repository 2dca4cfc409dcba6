#!/usr/bin/env python3
"""Measures the tries a second of the walk beside two plain Rust forms of it, in one run, and of the wide walk beside one.

Usage: bench/walks.py PROGRAM [MILLIONS [ROUNDS [WALK]]] [WIDE]

PROGRAM is crates/bench_all's program, as `rt run` leaves it in crates/bench_all/out. Both peers are in
bench/peers/walk.rs, which is built here by rustc -O. For pools of 100, 1,000 and 10,000 items and both kinds a problem is
made from a fixed seed; the three programs walk it in turn, each round with MILLIONS million tries in all, and the least
processor time of the rounds counts, less that of a run without tries. The letters of all three must be equal.
A walk gets at most WALK million tries, 1 if none is given, and is made anew as often as MILLIONS asks. The letters of the
last walk alone are summed up, to be compared. That takes 39 ms for 40 million letters: with one walk of 20 million tries
a fifth of the plain form's time or more.
The wide walk goes over the same coins at 10 now and in the long run 25, so that each input saves what it costs later. Its
peer is bench/peers/wide.rs, with running sums. With the word WIDE the usual walks are left out.
"""
import os
import random
import subprocess
import sys
import tempfile

from timing import once

HERE = os.path.dirname(os.path.abspath(__file__))


def pool(count, seed, now=25, then=10):
    """Items of coins of 10,000 to 5,010,000 satoshi over three kinds of scripts, at rates now and in the long run."""
    rng = random.Random(seed)
    items = []
    for _ in range(count):
        weight = rng.choice((272, 230, 593))
        vsize = -(-weight // 4)
        fee, later = now * vsize, then * vsize
        value = 10_000 + rng.randrange(5_000_000) - fee
        if value > 0:
            items.append((value, weight, fee - later))
    items.sort(key=lambda item: (-item[0], item[1], item[2]))
    return items


def problem(path, kind, count):
    """The file of a problem: its least value is a twentieth of the pool."""
    items = pool(count, count, 10, 25) if kind == "wide" else pool(count, count)
    lo = sum(item[0] for item in items) // 20
    hi = lo + (0 if kind == "lean" else 990)
    with open(path, "w") as file:
        file.write(f"{'lean' if kind == 'lean' else 'changeless'}\n{lo}\n{hi}\n399834\n")
        file.write(" ".join(f"{value}/{weight}/{cost}" for value, weight, cost in items) + "\n")


def run(words):
    """The output of a program, and the processor seconds that it took."""
    with tempfile.NamedTemporaryFile("r") as printed:
        taken = once(words, output=printed.name, memory=False)
        return printed.read(), taken.seconds


def rates(programs, path, total, rounds, most):
    """Millions of tries a second of each program, and their outputs."""
    first, _ = run([*programs[0], path, str(min(total, most)), "1"])
    tries = int(first.split()[1])
    walks = max(1, total // max(1, tries))
    least, empty, outputs = [1e9] * len(programs), [1e9] * len(programs), [None] * len(programs)
    for _ in range(rounds):
        for i, program in enumerate(programs):
            outputs[i], seconds = run([*program, path, str(tries), str(walks)])
            least[i] = min(least[i], seconds)
            empty[i] = min(empty[i], run([*program, path, "0", str(walks)])[1])
    return [tries * walks / max(1e-9, l - e) / 1e6 for l, e in zip(least, empty)], outputs


def built(folder, name):
    """A peer, built for the same processors as the program."""
    peer = f"{folder}/{name}"
    subprocess.check_call(["rustc", "-O", "-C", "target-cpu=x86-64-v2", f"{HERE}/peers/{name}.rs", "-o", peer])
    return peer


def compare(folder, kind, count, programs, total, rounds, most):
    """The line of one pool: the rates of all programs, the proved one last, and its rate by that of each other one."""
    path = f"{folder}/{kind}-{count}"
    problem(path, kind, count)
    found, outputs = rates(programs, path, total, rounds, most)
    if len(set(outputs)) != 1:
        sys.exit(f"{count} {kind}: the programs differ: {outputs}")
    tries = ", ".join(f"{rate:.1f}" for rate in found)
    print(f"{count} {kind}: {tries}; {', '.join(f'{found[-1] / rate:.2f}' for rate in found[:-1])}", flush=True)


def main():
    words = [word for word in sys.argv[1:] if word != "WIDE"]
    total = int(float(words[1]) * 1e6) if len(words) > 1 else 3_000_000
    rounds = int(words[2]) if len(words) > 2 else 8
    most = int(float(words[3]) * 1e6) if len(words) > 3 else 1_000_000
    proved = os.path.abspath(words[0])
    counts = (100, 1_000, 10_000)
    with tempfile.TemporaryDirectory() as folder:
        print(f"processors {os.cpu_count()}, load {os.getloadavg()[0]:.1f}, tries {total}, at most {most} a walk, best of {rounds} rounds")
        if "WIDE" not in sys.argv:
            peer = built(folder, "walk")
            programs = [[peer, "plain"], [peer, "gap"], [proved, "walk"]]
            print("items kind: plain Rust, Rust with the gap, proved (million tries a second); proved / plain, proved / gap")
            for count in counts:
                for kind in ("changeless", "lean"):
                    compare(folder, kind, count, programs, total, rounds, most)
        programs = [[built(folder, "wide")], [proved, "wide"]]
        print("items kind: plain Rust, proved (million tries a second); proved / plain")
        for count in counts:
            compare(folder, "wide", count, programs, total, rounds, most)


if __name__ == "__main__":
    main()
