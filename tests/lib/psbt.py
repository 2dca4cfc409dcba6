"""Maps of a PSBT in both versions (BIP 174, BIP 370), and the payment that they tell of."""

import typing

from lib.bitcoin import input_bytes, output_bytes, read_compact, read_tx, serialised, string

MAGIC = b"psbt\xff"


class Psbt(typing.NamedTuple):
    """A PSBT: its version, and the pairs of its global map, of each input's and of each output's, in their order."""

    version: int
    first: list
    inputs: list
    outputs: list


# ---- maps


def read_string(data, at):
    size, at = read_compact(data, at)
    return data[at:at + size], at + size


def read_map(data, at):
    pairs = []
    while True:
        key, at = read_string(data, at)
        if not key:
            return pairs, at
        value, at = read_string(data, at)
        pairs.append((key, value))


def read_psbt(data):
    """A PSBT from its bytes."""
    assert data[:5] == MAGIC, "no PSBT"
    first, at = read_map(data, 5)
    pairs = dict(first)
    version = int.from_bytes(pairs.get(b"\xfb", b""), "little")
    if version == 0:
        tx = read_tx(pairs[b"\x00"])
        counts = len(tx.inputs), len(tx.outputs)
    else:
        counts = [read_compact(pairs[key], 0)[0] for key in (b"\x04", b"\x05")]
    maps = []
    for _ in range(sum(counts)):
        one, at = read_map(data, at)
        maps.append(one)
    assert at == len(data), "something stands behind the PSBT"
    return Psbt(version, first, maps[:counts[0]], maps[counts[0]:])


def maps_in(psbt):
    """All maps in their order."""
    return [psbt.first, *psbt.inputs, *psbt.outputs]


def psbt_bytes(psbt):
    return MAGIC + b"".join(b"".join(string(key) + string(value) for key, value in one) + b"\x00" for one in maps_in(psbt))


# ---- the payment


def points_of(psbt):
    """What each input spends: the bytes of a txid, and an index."""
    if psbt.version == 0:
        return read_tx(dict(psbt.first)[b"\x00"]).inputs
    return [(dict(one)[b"\x0e"], int.from_bytes(dict(one)[b"\x0f"], "little")) for one in psbt.inputs]


def paid_by(psbt):
    """The value and the script of each output."""
    if psbt.version == 0:
        return read_tx(dict(psbt.first)[b"\x00"]).outputs
    return [(int.from_bytes(dict(one)[b"\x03"], "little"), dict(one)[b"\x04"]) for one in psbt.outputs]


def spent_by(psbt):
    """The value and the script of what each input spends: of its whole transaction, and only without one of its output."""
    for (_, index), one in zip(points_of(psbt), psbt.inputs):
        pairs = dict(one)
        if b"\x00" in pairs:
            yield read_tx(pairs[b"\x00"]).outputs[index]
        else:
            output = pairs[b"\x01"]
            yield int.from_bytes(output[:8], "little"), read_string(output, 8)[0]


def unsigned_of(psbt):
    """The bytes of the unsigned transaction."""
    pairs = dict(psbt.first)
    if psbt.version == 0:
        return pairs[b"\x00"]
    sequences = [int.from_bytes(dict(one).get(b"\x10", b"\xff" * 4), "little") for one in psbt.inputs]
    inputs = [input_bytes(*point, sequence) for point, sequence in zip(points_of(psbt), sequences)]
    numbers = [int.from_bytes(pairs.get(key, b""), "little") for key in (b"\x02", b"\x03")]
    return serialised(inputs, [output_bytes(*one) for one in paid_by(psbt)], None, *numbers)
