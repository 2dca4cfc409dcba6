"""What `settle` comes to by docs/FORMATS.md alone: the first refusal, the first rule that is broken, or the five lines of a settled
payment. Reports, PSBTs and files are read by the modules beside it."""
import json
import re

from pages import input_faults, text_places
from pages.answers import length_of
from pages.chain import fee
from pages.psbt_faults import Bytes, Fault, transaction
from pages.psbt_faults import fault_of as psbt_fault_of
from pages.verdicts import psbt_of

MOST_WEIGHT = 400_000
LIMITS = ((b"wallet", 16_777_216), (b"request", 1_048_576), (b"report", 67_108_864), (b"tx", 1_048_576))


class Signed:
    """A transaction that is in order: its fields, and what each input weighs."""

    def __init__(self, data):
        data = Bytes(data)
        self.version = data.number(4)
        segregated = data.data[4:5] == b"\0"
        data.take(2 * segregated)
        start = data.at
        self.inputs = [((data.take(32), data.number(4)), data.string(), data.number(4)) for _ in range(data.compact())]
        self.outputs = [(data.number(8), data.string()) for _ in range(data.compact())]
        bare = 8 + data.at - start
        places = [data.at]
        self.stacks = []
        for _ in self.inputs if segregated else ():
            self.stacks.append([data.string() for _ in range(data.compact())])
            places.append(data.at)
        witnesses = [end - begin for begin, end in zip(places, places[1:])] or [0] * len(self.inputs)
        self.locktime = data.number(4)
        self.weights = [4 * (40 + length_of(len(script)) + len(script)) + witness
                        for (_, script, _), witness in zip(self.inputs, witnesses)]
        self.weight = 4 * bare + (2 + sum(witnesses) if segregated else 0)

    def is_signed(self, index):
        return bool(self.inputs[index][1]) or bool(self.stacks and self.stacks[index])


def first(places):
    return next(iter(places), None)


def differing(tx, signed):
    """The first in which a signed transaction differs from the payment, or None."""
    version, inputs, outputs, locktime = tx
    if signed.version != version:
        return "Version"
    if signed.locktime != locktime:
        return "Locktime"
    if (len(signed.inputs), len(signed.outputs)) != (len(inputs), len(outputs)):
        return "Count"
    place = first(index for index, (one, other) in enumerate(zip(inputs, signed.inputs)) if (one[0], one[2]) != (other[0], other[2]))
    if place is not None:
        return f"Input {place}"
    place = first(index for index, (one, other) in enumerate(zip(outputs, signed.outputs)) if one != other)
    return None if place is None else f"Output {place}"


def broken(wallet, rate, report, signed):
    """The first rule that is broken, or None; and what was declared and spent."""
    place = text_places.fault_of(text_places.report, report)
    if place is not None:
        return f"Report {place}", None, None
    found = re.search(rb"(?<=\npsbt )[^\n]+", report)
    if found is None:
        return "NotFunded", None, None
    fault = psbt_fault_of(found[0])
    if fault is not None:
        return f"Psbt {fault}", None, None
    tx, shown = psbt_of(found[0])
    unknown = first(index for index, (whole, paid) in enumerate(shown) if whole is None and paid is None)
    if unknown is not None:
        return f"NoValue {unknown}", None, None
    spent = [paid if whole is None else whole[point[1]] for (whole, paid), (point, _, _) in zip(shown, tx[1])]
    weights = {bytes.fromhex(entry["script"]): entry["weight"] for entry in wallet["scripts"]}
    foreign = first(index for index, (_, script) in enumerate(spent) if script not in weights)
    if foreign is not None:
        return f"Foreign {foreign}", None, None
    declared = [weights[script] for _, script in spent]
    return unsettled(tx, signed, declared, sum(value for value, _ in spent), rate), declared, spent


def unsettled(tx, signed, declared, worth, rate):
    """The first rule that a signed transaction breaks, or None."""
    other = differing(tx, signed)
    if other is not None:
        return f"Differs {other}"
    unsigned = first(index for index in range(len(signed.inputs)) if not signed.is_signed(index))
    if unsigned is not None:
        return f"Unsigned {unsigned}"
    heavier = first(index for index, weight in enumerate(signed.weights) if weight > declared[index])
    if heavier is not None:
        return f"Heavier {heavier} {declared[heavier]} {signed.weights[heavier]}"
    if signed.weight > MOST_WEIGHT:
        return f"TooHeavy {signed.weight}"
    paid, needed = worth - sum(value for value, _ in signed.outputs), fee(rate, -(-signed.weight // 4))
    return None if paid >= needed else f"BelowRate {paid} {needed}"


def due(wallet, given, report, text):
    """Status and what is printed, of files that are there and within their limits."""
    fault = input_faults.fault_of(input_faults.read_wallet, wallet)
    if fault is not None:
        return 3, f"fault input wallet {fault}\n"
    fault = input_faults.fault_of(input_faults.read_request, given)
    if fault is not None:
        return 3, f"fault input request {fault}\n"
    line = text.removesuffix(b"\n")
    if re.fullmatch(b"([0-9a-fA-F]{2})*", line) is None:
        return 3, "fault input tx Hex\n"
    data = bytes.fromhex(line.decode())
    try:
        _, _, txid = transaction(data, False)
    except Fault as fault:
        return 3, f"fault input tx {fault}\n"
    signed = Signed(data)
    fault, declared, spent = broken(json.loads(wallet), json.loads(given)["rate"], report, signed)
    if fault is not None:
        return 13, f"fault settle {fault}\n"
    paid = sum(value for value, _ in spent) - sum(value for value, _ in signed.outputs)
    return 0, (f"settled {txid[::-1].hex()}\nweight {signed.weight}\nvsize {-(-signed.weight // 4)}\nfee {paid}\n"
               f"spare {sum(declared) - sum(signed.weights)}\n")


def judge(files, status, printed):
    """What kind of end a case comes to; fails where it isn't the one that is due."""
    names = ("wallet.json", "request.json", "report", "tx")
    if any(name not in files for name in names) or any(len(files[name]) > limit for name, (_, limit) in zip(names, LIMITS)):
        assert status in (3, 4, 9), f"{printed} with a file that isn't there or is too long"
        return "not all files"
    told = due(*(files[name] for name in names))
    assert told == (status, printed), f"{told} is due, and not {(status, printed)}"
    return {0: "settled", 3: "refused", 13: "broken rules"}[status]
