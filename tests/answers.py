#!/usr/bin/env python3
"""Does requests anew by the pages alone, and compares what the program prints and writes; outside the gate.

    tests/answers.py stored
    tests/answers.py PROGRAM [COUNT] [SEED]

The first looks at what `methods`, `prices` and `versions` in rows_cases have to print. PROGRAM is a built fund_cli: COUNT requests
(500) of all methods are made from the SEED (1), over wallets of a few coins, some of them pending. What may be spent, and which coins
of which row are chosen, is worked out as docs/FORMATS.md says, by trying every choice. Each section of LOG is checked as
docs/CLOSING_LOG.md says: its problem by its digest, its letters one by one. It shares no code with the program, and needs Python alone.
"""
import collections
import json
import random
import sys
import tempfile

from harness.cases import SCRIPTS
from lib.bitcoin import read_tx, transaction
from lib.programs import funded, tell
from lib.stored_rows import answers_of
from pages.answers import Request, judge
from pages.chain import Chain


def case(r):
    """A wallet and a request."""
    values = [r.choice([20_000, 30_000, 50_000, 100_000]) + r.choice([0, 0, r.randrange(5_000)]) for _ in range(r.randrange(8))]
    earlier, coins = [], []
    for value in values:
        data = transaction([(r.randbytes(32), 0)], [(value, r.choice(SCRIPTS)[0])])
        earlier.append({"tx": data.hex(), "height": r.choice([80, 96, 99, 100])})
        coins.append((read_tx(data)[0], 0))
    pending, free = [], list(coins)
    for _ in range(r.choice([0, 0, 1, 2, 3])):
        inputs = [r.choice(free)] if free and r.random() < 0.7 else [(r.randbytes(32), 1)]
        free = [point for point in free if point not in inputs or r.random() < 0.2]
        data = transaction(inputs, [(r.randrange(5_000, 90_000), r.choice(SCRIPTS)[0]) for _ in range(r.choice([1, 2]))])
        pending.append(data.hex())
        free += [(read_tx(data)[0], index) for index in range(len(read_tx(data)[2]))]
    entries = [{"script": script.hex(), "weight": weight} for script, weight in SCRIPTS]
    wallet = {"height": 100, "hash": "00" * 32, "scripts": entries, "change": r.choice(entries), "earlier": earlier, "pending": pending}
    if pending and r.random() < 0.1:
        wallet["abandoned"] = [read_tx(bytes.fromhex(r.choice(pending)))[0][::-1].hex()]
    if coins and r.random() < 0.2:
        wallet["locked"] = [f"{coins[0][0][::-1].hex()}:0"]
    total = sum(values) or 50_000
    request = {"recipients": [{"script": "0014" + "44" * 20, "amount": r.randint(600, total)} for _ in range(r.choice([1, 1, 2]))],
               "rate": r.choice([1_000, 10_000, 25_000, 40_000]), "long_term": r.choice([1_000, 10_000, 30_000]),
               "change_target": r.choice([0, 5_000, 20_000, 50_000]),
               "method": r.choice(["auto", "auto", "changeless", "weight", "draw", "manual"]),
               "seed": r.randbytes(32).hex(), "tries": r.choice([1, 2, 5, 100_000, 100_000, 100_000]),
               "when_unfinished": r.choice(["take", "stop"]), "zero_conf": r.random() < 0.8, "include_unsafe": r.random() < 0.3,
               "group": r.random() < 0.3}
    if free and (request["method"] == "manual" or r.random() < 0.2):
        request["coins"] = [f"{txid[::-1].hex()}:{index}" for txid, index in r.sample(free, r.randint(1, min(3, len(free))))]
    return wallet, request


def stored_end(step, status, text):
    """What kind of end a stored payment comes to. One that its request or what it replaces refuses isn't judged here."""
    report, mark, log = text.partition("fund-log 1\n")
    given, wallet = (json.loads(step.files[name]) for name in ("request.json", "wallet.json"))
    if "bump" in given or report.startswith("fault input request "):
        return "beyond this"
    asked = Request(given, wallet, Chain(wallet, step.files["blocks.dat"]))
    return judge(asked, status, report.removesuffix("no log\n"), mark + log if mark else None)


def stored():
    """Judges the payments of three parts of rows_cases: the files of their input, and what is to be printed for them."""
    ends = collections.Counter()
    for part in ("methods", "prices", "versions"):
        for step, status, text in answers_of(part):
            if step.columns[1] == "fund":
                ends[stored_end(step, status, text)] += 1
    return f"{sum(ends.values())} stored cases", ends


def main():
    if sys.argv[1:] == ["stored"]:
        tell(*stored())
        return 0
    program = sys.argv[1]
    count = int(sys.argv[2]) if len(sys.argv) > 2 else 500
    seed = int(sys.argv[3]) if len(sys.argv) > 3 else 1
    r, ends = random.Random(seed), collections.Counter()
    with tempfile.TemporaryDirectory() as folder:
        for number in range(count):
            wallet, request = case(r)
            run, log = funded(program, folder, json.dumps(wallet), json.dumps(request))
            try:
                ends[judge(Request(request, wallet, Chain(wallet, b"")), run.status, run.printed.decode(), log)] += 1
            except AssertionError as wrong:
                print(f"WRONG, request {number} of seed {seed}: {wrong}\n{json.dumps(wallet)}\n{json.dumps(request)}")
                return 1
    tell(f"{count} requests of seed {seed}", ends)
    return 0


if __name__ == "__main__":
    sys.exit(main())
