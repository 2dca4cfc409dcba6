#!/usr/bin/env python3
"""Writes a wallet file with many coins and pending payments, made from a seed alone, and prints what it holds.

usage: make_states.py FILE [--seed N] [--coins N] [--payments N] [--chain N]

The coins are outputs of earlier transactions, 200 to one. The payments stand in chains: the first of a chain spends a
coin, each other one an output of the one before it, and each pays a listed script. The same words give the same bytes.
"""

import argparse
import random
import sys
from pathlib import Path

sys.path.insert(0, str(Path(__file__).resolve().parent.parent / "tests"))
from lib.bitcoin import double_sha256, transaction

SCRIPT = b"\x00\x14" + b"\xaa" * 20
OUTPUTS = 200


def paying(spent, index, values):
    """A transaction that spends one output, with an output of each value to the listed script."""
    return transaction([(spent, index)], [(value, SCRIPT) for value in values])


def main():
    words = argparse.ArgumentParser()
    words.add_argument("file")
    words.add_argument("--seed", type=int, default=1)
    words.add_argument("--coins", type=int, default=95_000)
    words.add_argument("--payments", type=int, default=5_000)
    words.add_argument("--chain", type=int, default=25)
    words = words.parse_args()
    rng = random.Random(words.seed)
    earlier, points = [], []
    for _ in range(words.coins // OUTPUTS):
        tx = paying(rng.randbytes(32), 0, [rng.randrange(546, 1_000_000) for _ in range(OUTPUTS)])
        earlier.append('{"tx":"%s","height":%d}' % (tx.hex(), rng.randrange(800_000)))
        points.append(double_sha256(tx))
    pending = []
    for number in range(words.payments):
        if number % words.chain == 0:
            chain = number // words.chain
            spent, index = points[chain % len(points)], chain // len(points)
        tx = paying(spent, index, [rng.randrange(546, 1_000_000)])
        pending.append('"%s"' % tx.hex())
        spent, index = double_sha256(tx), 0
    text = '{"height":800000,"hash":"%s","scripts":[{"script":"%s","weight":272}],"change":{"script":"%s","weight":272},"earlier":[%s],"pending":[%s]}' % (
        rng.randbytes(32).hex(), SCRIPT.hex(), SCRIPT.hex(), ",".join(earlier), ",".join(pending))
    with open(words.file, "w", encoding="ascii") as file:
        file.write(text)
    print("%d coins, %d payments in chains of %d" % (len(earlier) * OUTPUTS + len(pending), len(pending), words.chain))


main()
