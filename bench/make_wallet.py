#!/usr/bin/env python3
"""Writes a wallet file, made from a seed alone, and prints what its lists hold.

usage: make_wallet.py FILE [--seed N] [--bytes N]

About a third of the bytes are scripts, a third earlier transactions, and a third pending ones, each of which spends an
output of the one before it. The file has at most --bytes bytes. The same words give the same bytes.
"""

import argparse
import random
import sys
from pathlib import Path

sys.path.insert(0, str(Path(__file__).resolve().parent.parent / "tests"))
from lib.bitcoin import double_sha256, transaction


def paying(rng, parent):
    """A transaction with one input and one output."""
    value = rng.randrange(546, 1_000_000)
    return transaction([(parent, 0)], [(value, b"\x00\x14" + rng.randbytes(20))])


def entries(share, make):
    """Entries of at most so many bytes together, with the comma behind each."""
    made = []
    while True:
        entry = make()
        share -= len(entry) + 1
        if share < 0:
            return made
        made.append(entry)


def main():
    words = argparse.ArgumentParser()
    words.add_argument("file")
    words.add_argument("--seed", type=int, default=1)
    words.add_argument("--bytes", type=int, default=16_777_216)
    words = words.parse_args()
    rng = random.Random(words.seed)
    share = (words.bytes - 400) // 3

    def script():
        return '{"script":"0014%s","weight":272}' % rng.randbytes(20).hex()

    def earlier():
        return '{"tx":"%s","height":%d}' % (paying(rng, rng.randbytes(32)).hex(), rng.randrange(800_000))

    parent = rng.randbytes(32)

    def pending():
        nonlocal parent
        tx = paying(rng, parent)
        parent = double_sha256(tx)
        return '"%s"' % tx.hex()

    lists = [entries(share, make) for make in (script, earlier, pending)]
    text = '{"height":800000,"hash":"%s","scripts":[%s],"change":{"script":"0014%s","weight":272},"earlier":[%s],"pending":[%s]}' % (
        rng.randbytes(32).hex(), ",".join(lists[0]), rng.randbytes(20).hex(), ",".join(lists[1]), ",".join(lists[2]))
    with open(words.file, "w", encoding="ascii") as file:
        file.write(text)
    print("%d scripts, %d earlier, %d pending" % tuple(len(entry) for entry in lists))


main()
