#!/usr/bin/env python3
"""Writes the files of a payment that nothing pays, so that every search goes to its end.

Usage: bench/make_none.py WALLET BLOCKS REQUEST [COINS]

Each coin is worth a multiple of 100,000 satoshi, and the payment ends with 50,000, so that no set of coins lies in the
narrow window of a payment without change. The block file is empty. With 23 coins there are some 4.5 million tries.
"""
import json
import random
import sys
from pathlib import Path

sys.path.insert(0, str(Path(__file__).resolve().parent.parent / "tests"))
from lib.bitcoin import transaction

SCRIPT = "0014" + 20 * "11"


def main():
    wallet, blocks, request = sys.argv[1:4]
    count = int(sys.argv[4]) if len(sys.argv) > 4 else 23
    rng = random.Random(count)
    values = [100_000 * rng.randrange(30, 60) for _ in range(count)]
    earlier = []
    for number, value in enumerate(values):
        spent = number.to_bytes(4, "little") + 28 * b"\x07"
        earlier.append({"tx": transaction([(spent, 0)], [(value, bytes.fromhex(SCRIPT))]).hex(), "height": 1})
    watched = {"script": SCRIPT, "weight": 272}
    with open(wallet, "w") as file:
        json.dump({"height": 200, "hash": 64 * "0", "scripts": [watched], "change": watched, "earlier": earlier,
                   "pending": [], "abandoned": [], "locked": []}, file)
    open(blocks, "wb").close()
    amount = sum(values) // 200_000 * 100_000 + 50_000
    with open(request, "w") as file:
        json.dump({"recipients": [{"script": "0014" + 20 * "44", "amount": amount}], "rate": 1_000, "method": "changeless",
                   "tries": 10_000_000}, file)


if __name__ == "__main__":
    main()
