#!/usr/bin/env python3
"""Times calls of the library beside the same commands by a process, and beside plain Rust; after c/build.sh.

    bench/library.py PROGRAM [ROUNDS]

PROGRAM is a built fund_cli. Payments from the wallet of crates/fund_cli/data, one of one coin, and from wallets of 100 and 10,000 coins
(make_fund.py) are funded ROUNDS times (200; a hundredth of it where a call takes long) by one process in C over c/out/libninelace.a, and by a process each.
`work 1 COUNT` is done so too, beside the same selection in plain Rust in one process (peers/work.rs, in both forms). Then 1,000 payments of one coin
are made in a loop. Printed: processor time in microseconds, the least of the calls; of the plain Rust the mean of ROUNDS.
"""

import json
import os
import pathlib
import subprocess
import sys
import tempfile

from timing import once

TOP = pathlib.Path(__file__).resolve().parent.parent
FILES = ("wallet.json", "blocks.dat", "request.json")
PEERS = (("with its wallet", "wallet"), ("coins alone", "coins"))
BLOCK_BYTES = {100: 20_000, 10_000: 2_000_000}


def ran(words):
    return subprocess.run([str(word) for word in words], check=True, capture_output=True, text=True).stdout


def by_library(library, command, rounds, words):
    """The code, and the least and the mean microseconds of a call."""
    code, _, least, mean = ran([library, command, rounds, *words]).split()
    return int(code), float(least), float(mean)


def by_process(words, code, runs, cwd=None):
    """The least microseconds of a process."""
    return 1e6 * min(once(words, status=code, cwd=cwd, memory=False).seconds for _ in range(runs))


def by_peer(peer, count, form, rounds):
    """The mean microseconds of a round: those of all, less those of one."""
    one, all_of_them = (min(once([peer, 1, count, form, number], memory=False).seconds for _ in range(3)) for number in (1, rounds + 1))
    return 1e6 * (all_of_them - one) / rounds


def small(folder):
    """The files of a payment of one coin."""
    data = TOP / "crates" / "fund_cli" / "data"
    asked = json.loads((data / "request.json").read_text())
    asked["recipients"][0]["amount"] = 30_000
    (folder / "small.json").write_text(json.dumps(asked))
    return [data / "wallet.json", data / "blocks.dat", folder / "small.json"]


def main():
    program, rounds = sys.argv[1], int(sys.argv[2]) if len(sys.argv) > 2 else 200
    with tempfile.TemporaryDirectory() as place:
        folder = pathlib.Path(place)
        library, peer = folder / "library", folder / "peer"
        ran(["cc", "-std=c11", "-O2", f"-I{TOP / 'c'}", TOP / "bench" / "library.c", TOP / "c" / "out" / "libninelace.a", "-o", library])
        ran(["rustc", "--edition", "2021", "-O", TOP / "bench" / "peers" / "work.rs", "-o", peer])
        print(f"load {os.getloadavg()[0]:.1f} on {os.cpu_count()} processors")
        for coins in (1, 100, 10_000):
            files = small(folder) if coins == 1 else [folder / name for name in FILES]
            if coins > 1:
                ran([sys.executable, TOP / "bench" / "make_fund.py", *files, "--coins", coins, "--listed", 5, "--bytes", BLOCK_BYTES[coins], "--method", "auto"])
            code, least, mean = by_library(library, "fund", rounds if coins < 1_000 else max(5, rounds // 40), files)
            process = by_process([program, "fund", *files, folder / "log"], code, 10)
            print(f"fund, {coins} coins, code {code}: a call {least:.0f} us, on average {mean:.0f}; a process {process:.0f} us")
        for coins in (1, 100, 10_000):
            some = rounds if coins < 1_000 else max(5, rounds // 40)
            code, least, mean = by_library(library, "work", some, ["1", str(coins)])
            process = by_process([program, "work", "1", coins], code, 10)
            plain = "".join(f"; plain Rust, {name} {by_peer(peer, coins, form, some):.0f}" for name, form in PEERS) if coins > 1 else ""
            print(f"work, {coins} coins, code {code}: a call {least:.0f} us, on average {mean:.0f}; a process {process:.0f} us{plain}")
        code, least, mean = by_library(library, "fund", 1000, small(folder))
        print(f"1,000 payments of one coin in a loop: {mean:.0f} us each, {mean:.0f} ms together, code {code}")


if __name__ == "__main__":
    main()
