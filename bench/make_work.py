#!/usr/bin/env python3
"""Writes the files of the workload that `work NUMBER COUNT` makes, so that `fund` can be run on it.

Usage: bench/make_work.py WALLET BLOCKS REQUEST NUMBER COUNT [TRIES]

With TRIES the request asks for so many, and to stop where they are used up. The block file is empty. The words are those
of ChaCha20 (RFC 8439), with the number as the key.
"""
import json
import struct
import sys
from pathlib import Path

sys.path.insert(0, str(Path(__file__).resolve().parent.parent / "tests"))
from lib.bitcoin import FINAL, transaction

KINDS = [("0014" + 20 * "11", 272), ("5120" + 32 * "22", 230), ("76a914" + 20 * "33" + "88ac", 593)]
MASK = 0xFFFFFFFF


def quarter(s, a, b, c, d):
    for left, right, target, bits in ((a, b, d, 16), (c, d, b, 12), (a, b, d, 8), (c, d, b, 7)):
        s[left] = (s[left] + s[right]) & MASK
        mixed = s[target] ^ s[left]
        s[target] = (mixed << bits | mixed >> (32 - bits)) & MASK


def words(number):
    """The words of ChaCha20 by this key, without end."""
    key = struct.unpack("<8I", struct.pack("<Q", number) + bytes(24))
    block = 0
    while True:
        first = [0x61707865, 0x3320646E, 0x79622D32, 0x6B206574, *key, block & MASK, block >> 32, 0, 0]
        state = first[:]
        for _ in range(10):
            for turn in ((0, 4, 8, 12), (1, 5, 9, 13), (2, 6, 10, 14), (3, 7, 11, 15),
                         (0, 5, 10, 15), (1, 6, 11, 12), (2, 7, 8, 13), (3, 4, 9, 14)):
                quarter(state, *turn)
        yield from ((now + then) & MASK for now, then in zip(state, first))
        block += 1


def main():
    wallet, blocks, request = sys.argv[1:4]
    number, count = int(sys.argv[4]), int(sys.argv[5])
    drawn, total, earlier = words(number), 0, []
    for coin in range(count):
        value, kind = 10_000 + next(drawn) % 5_000_000, next(drawn) % 3
        spent = coin.to_bytes(4, "little") + 28 * b"\x01"
        made = transaction([(spent, 0)], [(value, bytes.fromhex(KINDS[kind][0]))], FINAL)
        earlier.append({"tx": made.hex(), "height": 100})
        total += value
    scripts = [{"script": script, "weight": weight} for script, weight in KINDS]
    with open(wallet, "w") as file:
        json.dump({"height": 200, "hash": 64 * "0", "scripts": scripts, "change": scripts[0], "earlier": earlier,
                   "pending": [], "abandoned": [], "locked": []}, file)
    open(blocks, "wb").close()
    asked = {"recipients": [{"script": "0014" + 20 * "44", "amount": total // 20}], "rate": 25_000, "seed": 64 * "0"}
    if len(sys.argv) > 6:
        asked |= {"tries": int(sys.argv[6]), "when_unfinished": "stop"}
    with open(request, "w") as file:
        json.dump(asked, file)


if __name__ == "__main__":
    main()
