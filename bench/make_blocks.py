#!/usr/bin/env python3
"""Writes a block file of linked blocks, made from a seed alone.

usage: make_blocks.py FILE [--seed N] [--bytes N] [--block-bytes N]

The first block follows the hash of 32 zero bytes. Each block has the Merkle root of its transactions, which have
the legacy form and differ from one another. Its bits and nonce are no proof of work, which no reader of the
repository asks for. Blocks are added until the file has at least --bytes bytes. The same words give the same bytes.
"""

import argparse
import random
import sys
from pathlib import Path

sys.path.insert(0, str(Path(__file__).resolve().parent.parent / "tests"))
from lib.bitcoin import FINAL, block, input_bytes, output_bytes, record, serialised

MAX_MONEY = 2_100_000_000_000_000


def script_pubkey(rng):
    kind = rng.randrange(4)
    if kind == 0:
        return b"\x76\xa9\x14" + rng.randbytes(20) + b"\x88\xac"
    if kind == 1:
        return b"\xa9\x14" + rng.randbytes(20) + b"\x87"
    if kind == 2:
        return b"\x00\x14" + rng.randbytes(20)
    return b"\x51\x20" + rng.randbytes(32)


def output(rng):
    return output_bytes(rng.randrange(546, MAX_MONEY // 1_000_000), script_pubkey(rng))


def coinbase(rng, height):
    script = height.to_bytes(4, "little") + rng.randbytes(8)
    spent = input_bytes(bytes(32), FINAL, FINAL, script)
    return serialised([spent], [output_bytes(50 * 100_000_000, script_pubkey(rng))], version=1)


def spend(rng, inputs=None, outputs=None):
    """A payment with scripts of the size of a signature and a key; 190 to about 600 bytes. Its inputs and outputs are as many as
    is said, or else up to three."""
    spent = []
    for _ in range(inputs or rng.choice((1, 1, 1, 2, 2, 3))):
        script = b"\x48" + rng.randbytes(72) + b"\x21" + rng.randbytes(33)
        spent.append(input_bytes(rng.randbytes(32), rng.randrange(8), script=script))
    return serialised(spent, [output(rng) for _ in range(outputs or rng.choice((1, 2, 2, 2, 3)))])


def filled(rng, height, wanted):
    """The transactions of a block of about as many bytes as are wanted."""
    txs = [coinbase(rng, height)]
    size = 80 + 3 + len(txs[0])
    while size < wanted:
        txs.append(spend(rng))
        size += len(txs[-1])
    return txs


def main():
    parser = argparse.ArgumentParser(description="Writes a block file made from a seed.")
    parser.add_argument("file")
    parser.add_argument("--seed", type=int, default=1)
    parser.add_argument("--bytes", type=int, default=64 * 1024 * 1024)
    parser.add_argument("--block-bytes", type=int, default=1_000_000)
    words = parser.parse_args()

    rng = random.Random(words.seed)
    previous, blocks, txs, written = bytes(32), 0, 0, 0
    with open(words.file, "wb") as file:
        while written < words.bytes:
            wanted = min(words.block_bytes, words.bytes - written - 8)
            made = filled(rng, blocks + 1, wanted)
            body, previous = block(previous, blocks + 1, made)
            written += file.write(record(body))
            blocks += 1
            txs += len(made)
    print(f"{blocks} blocks, {txs} transactions")


if __name__ == "__main__":
    main()
