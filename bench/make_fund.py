#!/usr/bin/env python3
"""Writes a wallet file, a block file and a request for a payment from many coins, made from a seed alone.

usage: make_fund.py WALLET BLOCKS REQUEST [--seed N] [--coins N] [--bytes N] [--listed N] [--method METHOD] [--tries N]
                    [--pairs]

Half of the --coins coins are outputs of earlier transactions of the wallet, 20 each, and half of them are outputs of
payments in the blocks. The blocks are filled up with other payments until the file has at least --bytes bytes. The
request pays a third of what --listed coins are worth; its ladder has six rows. With the method `manual` it lists these
coins, and with another it lists none, and asks for --tries tries. With --pairs the other payments have two inputs and two outputs
each, and else one to three. The same words give the same bytes.
"""

import argparse
import json
import random

from make_blocks import coinbase, spend
from lib.bitcoin import block, double_sha256, record, shown, transaction

OUTPUTS = 20
SCRIPTS = 100
BLOCK_BYTES = 1_000_000


def payment(rng, scripts):
    """A payment to the wallet, its txid, and what its outputs are worth."""
    values = [rng.randrange(10_000, 1_000_000) for _ in range(OUTPUTS)]
    outputs = [(value, rng.choice(scripts)) for value in values]
    text = transaction([(rng.randbytes(32), 0)], outputs)
    return text, shown(double_sha256(text)), values


def write_blocks(rng, name, payments, wanted, many=None):
    """Blocks of payments and of others, which have so many inputs and outputs; how many blocks and transactions there are."""
    previous, height, count, written = bytes(32), 0, 0, 0
    share = -(-len(payments) // max(1, -(-wanted // BLOCK_BYTES)))
    with open(name, "wb") as file:
        while payments or written < wanted:
            height += 1
            txs = [coinbase(rng, height)] + payments[:share]
            payments = payments[share:]
            size = 88 + sum(map(len, txs))
            while size < min(BLOCK_BYTES, wanted - written):
                txs.append(spend(rng, many, many))
                size += len(txs[-1])
            body, previous = block(previous, height, txs)
            written += file.write(record(body))
            count += len(txs)
    return height, count


def main():
    words = argparse.ArgumentParser(description="Writes the files of a payment from many coins.")
    for name in ("wallet", "blocks", "request"):
        words.add_argument(name)
    words.add_argument("--seed", type=int, default=1)
    words.add_argument("--coins", type=int, default=10_000)
    words.add_argument("--bytes", type=int, default=64 * 1024 * 1024)
    words.add_argument("--listed", type=int, default=100)
    words.add_argument("--method", default="manual")
    words.add_argument("--tries", type=int, default=100_000)
    words.add_argument("--pairs", action="store_true")
    words = words.parse_args()
    rng = random.Random(words.seed)

    scripts = [b"\x00\x14" + rng.randbytes(20) for _ in range(SCRIPTS)]
    made = [payment(rng, scripts) for _ in range(words.coins // OUTPUTS)]
    earlier, later = made[: len(made) // 2], made[len(made) // 2 :]

    watched = [{"script": script.hex(), "weight": 272} for script in scripts]
    wallet = {
        "height": 0, "hash": "00" * 32, "scripts": watched, "change": watched[0],
        "earlier": [{"tx": text.hex(), "height": 0} for text, _, _ in earlier], "pending": [],
    }
    with open(words.wallet, "w") as file:
        json.dump(wallet, file)

    blocks, count = write_blocks(rng, words.blocks, [text for text, _, _ in later], words.bytes, 2 if words.pairs else None)

    coins = [(f"{txid}:{place}", value) for _, txid, values in made for place, value in enumerate(values)]
    listed = rng.sample(coins, words.listed)
    request = {
        "recipients": [{"script": "0014" + rng.randbytes(20).hex(), "amount": sum(value for _, value in listed) // 3}],
        "rate": 10_000, "method": words.method, "zero_conf": True,
    }
    if words.method == "manual":
        request["coins"] = [name for name, _ in listed]
    else:
        request.update(seed="00" * 32, tries=words.tries)
    with open(words.request, "w") as file:
        json.dump(request, file)
    print(f"{len(coins)} coins, {blocks} blocks, {count} transactions")


if __name__ == "__main__":
    main()
