#!/usr/bin/env python3
"""Draws by the definition alone, for the rows `problem draw` of crates/rows_searches: words by RFC 8439 with a 64-bit counter and
stream 0, a plain shuffle, and a fold that looks at all kept places.

Usage: bench/make_draws.py < crates/rows_searches/stdin       prints what rows_searches must print of them
"""
import struct, sys


def turned(x, n):
    return ((x << n) | (x >> (32 - n))) & 0xFFFFFFFF


def quarter(s, a, b, c, d):
    for x, y, z, n in ((a, b, d, 16), (c, d, b, 12), (a, b, d, 8), (c, d, b, 7)):
        s[x] = (s[x] + s[y]) & 0xFFFFFFFF
        s[z] = turned(s[z] ^ s[x], n)


ROUNDS = ((0, 4, 8, 12), (1, 5, 9, 13), (2, 6, 10, 14), (3, 7, 11, 15), (0, 5, 10, 15), (1, 6, 11, 12), (2, 7, 8, 13), (3, 4, 9, 14))


def words(seed):
    block = 0
    while True:
        start = [0x61707865, 0x3320646E, 0x79622D32, 0x6B206574, *struct.unpack("<8I", seed)]
        start += [block & 0xFFFFFFFF, block >> 32, 0, 0]
        state = list(start)
        for _ in range(10):
            for places in ROUNDS:
                quarter(state, *places)
        yield from ((x + y) & 0xFFFFFFFF for x, y in zip(state, start))
        block += 1


def order(count, seed):
    word, places = words(seed), list(range(count))
    for last in range(count - 1, 0, -1):
        other = next(word) % (last + 1)
        places[last], places[other] = places[other], places[last]
    return places


def draw(items, lo, limit, seed):
    kept = set()
    for place in order(len(items), seed):
        kept.add(place)
        while sum(items[k][1] for k in kept) > limit:
            least = min(items[k][0] for k in kept)
            kept.remove(max(k for k in kept if items[k][0] == least))
        if sum(items[k][0] for k in kept) >= lo:
            return sorted(kept)
    return None


def text(places):
    return " ".join(map(str, places)) or "-"


for line in sys.stdin:
    if not line.startswith("problem\tdraw\t"):
        continue
    _, _, _, lo, _, limit, list_text, seed = line.rstrip("\n").split("\t")
    items = [] if list_text == "-" else [tuple(map(int, item.split("/"))) for item in list_text.split(" ")]
    if int(lo) == 0:
        print("no problem")
        continue
    seed = bytes.fromhex(seed)
    found = draw(items, int(lo), int(limit), seed)
    first, word = [], words(seed)
    for _ in range(4):
        first.append("%08x" % next(word))
    print("words " + " ".join(first), "order " + text(order(len(items), seed)), "found " + ("none" if found is None else text(found)), sep=", ")
