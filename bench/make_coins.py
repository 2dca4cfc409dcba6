#!/usr/bin/env python3
"""Writes a wallet file of one script and a block file whose blocks pay it, made from a seed alone.

usage: make_coins.py WALLET BLOCKS [--seed N] [--coins N] [--block-coins N]

Each block has a coinbase and a payment with at most --block-coins outputs to the script, so that there are --coins coins
in all. Each payment spends the first output of the one before it. The same words give the same bytes.
"""

import argparse
import random

from make_blocks import coinbase
from lib.bitcoin import block, double_sha256, record, transaction


def payment(rng, parent, script, outputs):
    return transaction([(parent, 0)], [(rng.randrange(546, 1_000_000), script) for _ in range(outputs)])


def main():
    words = argparse.ArgumentParser()
    words.add_argument("wallet")
    words.add_argument("blocks")
    words.add_argument("--seed", type=int, default=1)
    words.add_argument("--coins", type=int, default=10_000)
    words.add_argument("--block-coins", type=int, default=20)
    words = words.parse_args()
    rng = random.Random(words.seed)
    script = b"\x00\x14" + rng.randbytes(20)

    with open(words.wallet, "w") as file:
        watch = '{"script":"%s","weight":272}' % script.hex()
        file.write('{"height":0,"hash":"%s","scripts":[%s],"change":%s,"earlier":[],"pending":[]}' % ("00" * 32, watch, watch))

    previous, height, left, parent = bytes(32), 0, words.coins, rng.randbytes(32)
    with open(words.blocks, "wb") as file:
        while left > 0:
            height += 1
            txs = [coinbase(rng, height), payment(rng, parent, script, min(left, words.block_coins))]
            left -= min(left, words.block_coins)
            parent = double_sha256(txs[1])
            body, previous = block(previous, height, txs)
            file.write(record(body))
    print(f"{words.coins} coins, {height} blocks")


if __name__ == "__main__":
    main()
