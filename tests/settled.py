#!/usr/bin/env python3
"""Works out what the rows `settled` of rows_cases must print, and compares it with what is stored; outside the gate.

    tests/settled.py            compares
    tests/settled.py --print    prints what is due

Each row names a wallet, a request, a report and a signed transaction: in hex, or a PSBT in base64 or as bytes, in version 0 (BIP 174)
or 2 (BIP 370). Transactions and PSBTs are read here, inputs are weighed (BIP 141) and fees worked out. It shares no code with the
program, and needs Python alone.
"""
import base64
import binascii
import json
import struct
import sys

from lib.bitcoin import double_sha256, output_bytes, serialised, shown, stack, string
from lib.stored_rows import commands_of, part_of
from pages import psbt_faults

MAGIC = b"psbt\xff"
UNSIGNED = "input {} isn't signed: the PSBT has neither its final script nor its final witness. Let the signer sign it and make it final."
UNFINISHED = ("input {} has a final witness that is none: its bytes aren't a number of items and each behind its length. "
              "Let the signer make the PSBT once more.")


class Reader:
    """Bytes that are read one after the other."""

    def __init__(self, data):
        self.data, self.place = data, 0

    def take(self, count):
        if self.place + count > len(self.data):
            raise ValueError("cut off")
        self.place += count
        return self.data[self.place - count : self.place]

    def number(self, size):
        return int.from_bytes(self.take(size), "little")

    def compact(self):
        first = self.number(1)
        return first if first < 253 else self.number({253: 2, 254: 4, 255: 8}[first])

    def string(self):
        return self.take(self.compact())

    def at_end(self):
        return self.place == len(self.data)

    def ends(self):
        if not self.at_end():
            raise ValueError(f"Trailing {self.place}")


def items_of(data):
    """The items of a witness; None where the bytes are none."""
    reader = Reader(data)
    try:
        items = [reader.string() for _ in range(reader.compact())]
    except ValueError:
        return None
    return items if reader.at_end() else None


def transaction(data):
    """A transaction: its version, its lock time, its inputs and outputs, and whether it is in the segregated form."""
    reader = Reader(data)
    version, segwit = reader.number(4), data[4:6] == b"\0\1"
    if segwit:
        reader.take(2)
    inputs = [{"prev": reader.take(36), "script": reader.string(), "sequence": reader.number(4), "witness": []} for _ in range(reader.compact())]
    outputs = [(reader.number(8), reader.string()) for _ in range(reader.compact())]
    for one in inputs if segwit else []:
        one["witness"] = [reader.string() for _ in range(reader.compact())]
    tx = {"version": version, "inputs": inputs, "outputs": outputs, "locktime": reader.number(4), "segwit": segwit}
    if not reader.at_end():
        raise ValueError("bytes behind it")
    return tx


def text_of(tx, segwit):
    """The bytes of a transaction in one form."""
    inputs = [one["prev"] + string(one["script"]) + struct.pack("<I", one["sequence"]) for one in tx["inputs"]]
    witnesses = [stack(one["witness"]) for one in tx["inputs"]] if segwit else None
    return serialised(inputs, [output_bytes(*one) for one in tx["outputs"]], witnesses, tx["version"], tx["locktime"])


def txid_of(tx):
    return shown(double_sha256(text_of(tx, False)))


def weight_of(tx):
    return 3 * len(text_of(tx, False)) + len(text_of(tx, tx["segwit"]))


def true_weight(one, segwit):
    """What an input weighs (BIP 141, 'Transaction size calculations')."""
    return 4 * (40 + len(string(one["script"]))) + (len(stack(one["witness"])) if segwit else 0)


def map_of(reader):
    """A map of a PSBT: its pairs in order."""
    pairs = {}
    while True:
        key = reader.string()
        if not key:
            return pairs
        pairs[key] = reader.string()


def psbt(data):
    """The transaction of a PSBT without what signs it, and the maps of its inputs."""
    reader = Reader(data)
    assert reader.take(5) == MAGIC
    top = map_of(reader)
    if b"\0" in top:
        tx = transaction(top[b"\0"])
        inputs, _ = [map_of(reader) for _ in tx["inputs"]], [map_of(reader) for _ in tx["outputs"]]
        reader.ends()
        return tx, inputs
    counts = [Reader(top[key]).compact() for key in (b"\4", b"\5")]
    inputs, outputs = ([map_of(reader) for _ in range(count)] for count in counts)
    reader.ends()
    given = [{"prev": one[b"\x0e"] + one[b"\x0f"], "script": b"", "sequence": int.from_bytes(one.get(b"\x10", b"\xff" * 4), "little"), "witness": []}
             for one in inputs]
    paid = [(int.from_bytes(one[b"\3"], "little"), one[b"\4"]) for one in outputs]
    locktime = int.from_bytes(top.get(b"\3", bytes(4)), "little")
    return {"version": int.from_bytes(top[b"\2"], "little"), "inputs": given, "outputs": paid, "locktime": locktime, "segwit": False}, inputs


def final(data):
    """The transaction that the final scripts and witnesses of a PSBT make; or what is said of the first input that isn't final."""
    tx, maps = psbt(data)
    for index, (one, pairs) in enumerate(zip(tx["inputs"], maps)):
        if b"\7" not in pairs and b"\x08" not in pairs:
            return None, UNSIGNED.format(index)
        one["script"] = pairs.get(b"\7", b"")
        one["witness"] = items_of(pairs[b"\x08"]) if b"\x08" in pairs else []
        if one["witness"] is None:
            return None, UNFINISHED.format(index)
    tx["segwit"] = any(one["witness"] for one in tx["inputs"])
    return tx, ""


def tx_fault(data):
    """The first fault of bytes that are no transaction, by the reader of tests/psbt_faults.py."""
    try:
        psbt_faults.transaction(data, False)
    except psbt_faults.Fault as fault:
        return fault
    raise AssertionError("one reader takes what the other doesn't")


def signed(data):
    """The signed transaction of a file; or what is said instead."""
    line = data[:-1] if data.endswith(b"\n") else data
    try:
        if data.startswith(MAGIC):
            return final(data)
        if line.startswith(b"cHNidP"):
            return final(base64.b64decode(line, validate=True))
    except binascii.Error:
        return None, "fault input psbt NotBase64"
    except ValueError as wrong:
        return None, f"fault input psbt {wrong}"
    try:
        data = bytes.fromhex(line.decode("ascii"))
    except ValueError:
        return None, "fault input tx Hex"
    try:
        return transaction(data), ""
    except ValueError:
        return None, f"fault input tx {tx_fault(data)}"


def spent_by(one, pairs):
    """The output that an input spends: that of the whole transaction beside it, or else the one that stands there alone."""
    if b"\0" in pairs:
        return transaction(pairs[b"\0"])["outputs"][int.from_bytes(one["prev"][32:], "little")]
    reader = Reader(pairs[b"\1"])
    return reader.number(8), reader.string()


def difference(tx, given):
    """In what a signed transaction first is another payment; nothing where it is the same."""
    for key, name in (("version", "Version"), ("locktime", "Locktime")):
        if tx[key] != given[key]:
            return name
    if any(len(tx[key]) != len(given[key]) for key in ("inputs", "outputs")):
        return "Count"
    for index, (a, b) in enumerate(zip(tx["inputs"], given["inputs"])):
        if (a["prev"], a["sequence"]) != (b["prev"], b["sequence"]):
            return f"Input {index}"
    return next((f"Output {index}" for index, (a, b) in enumerate(zip(tx["outputs"], given["outputs"])) if a != b), "")


def broken(tx, given, declared, worth, rate):
    """The first rule that is broken; nothing where none is."""
    part = difference(tx, given)
    if part:
        return f"Differs {part}"
    for index, one in enumerate(tx["inputs"]):
        if not one["script"] and not one["witness"]:
            return f"Unsigned {index}"
    for index, (one, most) in enumerate(zip(tx["inputs"], declared)):
        if true_weight(one, tx["segwit"]) > most:
            return f"Heavier {index} {most} {true_weight(one, tx['segwit'])}"
    weight = weight_of(tx)
    if weight > 400_000:
        return f"TooHeavy {weight}"
    fee, needed = worth - sum(value for value, _ in tx["outputs"]), -(-rate * -(-weight // 4) // 1000)
    return f"BelowRate {fee} {needed}" if fee < needed else ""


def table(tx, declared, worth):
    """The lines of a payment that is settled."""
    fee, vsize = worth - sum(value for value, _ in tx["outputs"]), -(-weight_of(tx) // 4)
    yield f"txid    {txid_of(tx)}"
    for one, most in zip(tx["inputs"], declared):
        coin = f"{one['prev'][31::-1].hex()}:{int.from_bytes(one['prev'][32:], 'little')}"
        yield f"weighs  {true_weight(one, tx['segwit'])} of {most} WU declared  {coin}"
    rate = 1000 * fee // vsize
    yield f"fee     {fee // 10**8}.{fee % 10**8:08} BTC  {fee} sat  {rate // 1000}.{rate % 1000:03} sat/vB for {vsize} vB"
    yield f"spare   {sum(declared) - sum(true_weight(one, tx['segwit']) for one in tx['inputs'])} WU"


def due(wallet, request, report, data):
    """The status and the lines of a row."""
    if len(data) > 1_048_576:
        return 9, ["fault limit tx"]
    tx, said = signed(data)
    if tx is None:
        return 3 if said.startswith("fault") else 13, [said]
    text = next(line for line in report.decode().splitlines() if line.startswith("psbt "))
    given, maps = psbt(base64.b64decode(text[5:]))
    spent = [spent_by(one, pairs) for one, pairs in zip(given["inputs"], maps)]
    weights = {bytes.fromhex(one["script"]): one["weight"] for one in reversed(json.loads(wallet)["scripts"])}
    declared, worth = [weights[script] for _, script in spent], sum(value for value, _ in spent)
    rule = broken(tx, given, declared, worth, json.loads(request)["rate"])
    if rule:
        return 13, [f"fault settle {rule}"]
    return 0, list(table(tx, declared, worth))


def all_due():
    """What all rows must print."""
    for step in commands_of("settled"):
        if step.verb == "settled":
            label, *names = step.columns
            status, lines = due(*(step.files[name] for name in names))
            yield f"{label}status {status}\n" + "".join(f"{line}\n" for line in lines)


def main():
    found = "".join(all_due())
    if sys.argv[1:] == ["--print"]:
        sys.stdout.write(found)
        return 0
    stored = part_of("rows_cases", "stdout", "settled")
    if found != stored:
        places = zip(found.splitlines(), stored.splitlines())
        print(next((f"due     {a}\nstored  {b}" for a, b in places if a != b), "one has more lines than the other"))
        return 1
    print(f"{found.count('status ')} rows as they are due")
    return 0


if __name__ == "__main__":
    sys.exit(main())
