"""Bytes of Bitcoin: CompactSize and strings, transactions as they are serialised, double SHA-256, Merkle trees and block files. For
tests/, bench/ and tools/."""

import hashlib
import typing

MAGIC = bytes.fromhex("f9beb4d9")  # of the main network, before each block of a block file
FINAL = 0xFFFFFFFF


def double_sha256(data):
    return hashlib.sha256(hashlib.sha256(data).digest()).digest()


def shown(hash_bytes):
    """A hash as it is shown: its bytes from the last to the first."""
    return hash_bytes[::-1].hex()


def compact(number):
    """A number in CompactSize."""
    if number < 253:
        return bytes([number])
    size = 2 if number < 2**16 else 4 if number < 2**32 else 8
    return {2: b"\xfd", 4: b"\xfe", 8: b"\xff"}[size] + number.to_bytes(size, "little")


def read_compact(data, at):
    """The number that stands in CompactSize at a place, and the place after it."""
    first = data[at]
    if first < 253:
        return first, at + 1
    size = {253: 2, 254: 4, 255: 8}[first]
    return int.from_bytes(data[at + 1 : at + 1 + size], "little"), at + 1 + size


def string(data):
    """Bytes after their length."""
    return compact(len(data)) + data


def stack(items):
    """The items of a witness."""
    return compact(len(items)) + b"".join(map(string, items))


def input_bytes(txid, index, sequence=0xFFFFFFFD, script=b""):
    return txid + index.to_bytes(4, "little") + string(script) + sequence.to_bytes(4, "little")


def output_bytes(value, script):
    return value.to_bytes(8, "little") + string(script)


def serialised(inputs, outputs, witnesses=None, version=2, locktime=0):
    """A transaction of inputs and outputs that are bytes already; with the witnesses of all inputs it is in the segregated form
    (BIP 144)."""
    marked = b"" if witnesses is None else b"\0\1"
    body = compact(len(inputs)) + b"".join(inputs) + compact(len(outputs)) + b"".join(outputs)
    return version.to_bytes(4, "little") + marked + body + b"".join(witnesses or ()) + locktime.to_bytes(4, "little")


def transaction(points, outputs, sequence=0xFFFFFFFD):
    """A transaction in the legacy form without signatures: what it spends, each a txid's bytes with an index; and its outputs, each
    a value in satoshi with a script."""
    return serialised([input_bytes(*point, sequence) for point in points], [output_bytes(*one) for one in outputs])


def merkle_root(hashes):
    while len(hashes) > 1:
        hashes = hashes + hashes[-1:] if len(hashes) % 2 else hashes
        hashes = [double_sha256(hashes[at] + hashes[at + 1]) for at in range(0, len(hashes), 2)]
    return hashes[0]


def block(previous, height, txs):
    """A block of these transactions after one of this hash, and the hash of its header. It has no proof of work."""
    root = merkle_root([double_sha256(tx) for tx in txs])
    numbers = (1_231_006_505 + 600 * height, 0x207FFFFF, 0)
    header = (4).to_bytes(4, "little") + previous + root + b"".join(number.to_bytes(4, "little") for number in numbers)
    return header + compact(len(txs)) + b"".join(txs), double_sha256(header)


def record(body):
    """A block as it stands in a block file."""
    return MAGIC + len(body).to_bytes(4, "little") + body


# ---- reading


class Tx(typing.NamedTuple):
    """A transaction: the outpoints that it spends, its outputs, the place after it, its bytes, its weight by BIP 141, and whether
    it signals by BIP 125 that it may be replaced."""

    txid: bytes
    inputs: list
    outputs: list
    end: int
    whole: bytes
    weight: int
    signals: bool


def read_tx(data, at=0):
    start, segregated = at, data[at + 4] == 0
    assert not segregated or data[at + 5] == 1, "the flag of witnesses"
    at += 6 if segregated else 4
    body = at
    count, at = read_compact(data, at)
    inputs, outputs, signals = [], [], False
    for _ in range(count):
        inputs.append((data[at:at + 32], int.from_bytes(data[at + 32:at + 36], "little")))
        length, at = read_compact(data, at + 36)
        at += length + 4
        signals = signals or int.from_bytes(data[at - 4:at], "little") < 0xFFFFFFFE
    many, at = read_compact(data, at)
    for _ in range(many):
        length, script = read_compact(data, at + 8)
        outputs.append((int.from_bytes(data[at:at + 8], "little"), data[script:script + length]))
        at = script + length
    bare = data[start:start + 4] + data[body:at]
    for _ in range(count if segregated else 0):
        items, at = read_compact(data, at)
        for _ in range(items):
            length, at = read_compact(data, at)
            at += length
    bare += data[at:at + 4]
    whole = data[start:at + 4]
    txid = double_sha256(bare)
    return Tx(txid, inputs, outputs, at + 4, whole, 3 * len(bare) + len(whole), signals)


def read_blocks(data):
    """The transactions of each block of a block file."""
    at, blocks = 0, []
    while data[at:at + 4] == MAGIC:
        end = at + 8 + int.from_bytes(data[at + 4:at + 8], "little")
        count, at = read_compact(data, at + 88)
        blocks.append([])
        for _ in range(count):
            tx = read_tx(data, at)
            blocks[-1].append(tx)
            at = tx.end
        assert at == end
    return blocks


def point_of(text):
    """An outpoint, the txid as its bytes stand in a transaction."""
    txid, index = text.split(":")
    return bytes.fromhex(txid)[::-1], int(index)


def shown_point(point):
    return f"{shown(point[0])}:{point[1]}"
