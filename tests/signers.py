#!/usr/bin/python3
"""Signs what the program writes with Electrum, and verifies it with python-bitcoinlib; outside the gate.

    [NINELACE=NINELACE] tests/signers.py PROGRAM [COUNT] [SEED] [METHOD ..]

PROGRAM is a built fund_cli, and NINELACE a built ninelace. It wants Debian's python3-electrum and python3-bitcoinlib. COUNT requests (100) of
the METHODs (all five) are made from the SEED (1), over wallets of P2WPKH, P2PKH, P2SH-P2WPKH, and 2 of 3 keys in P2WSH and P2SH.
(Electrum 4.3 can't sign for P2TR.) Each payment is read by Electrum, signed and finished; each of its signatures is
verified; its weight is compared with the declared one, and its fee with what the rate asks for its own size. Its mark, its
change, its coins and its log have to fit the request. `settle` has to take it, with the weight that it has less than declared;
and with one byte of an output, one sequence or one input changed it has to name what differs. `ninelace settle` has to take it
in hex, and as Electrum's finished PSBT in base64 and as bytes.
"""
import base64
import collections
import hashlib
import json
import os
import random
import sys
import tempfile

from bitcoin.core import CMutableTransaction, CTransaction
from bitcoin.core.key import CPubKey
from bitcoin.core.script import CScript, SIGVERSION_WITNESS_V0, SignatureHash
from electrum import bitcoin, ecc
from electrum.transaction import multisig_script, tx_from_any

from lib.bitcoin import FINAL, double_sha256, shown, transaction
from lib.programs import called, funded, write


def hash160(data):
    return bitcoin.hash_160(data)


def signers_of(name):
    """How many keys a script of this name has."""
    return 3 if name.endswith("2-of-3") else 1


class Kind:
    """A script, how it is spent, and the weight that is declared for an input that spends it."""

    def __init__(self, name, secrets):
        self.name, self.secrets = name, secrets
        count = signers_of(name)
        keys = sorted(ecc.ECPrivkey(secret).get_public_key_bytes(compressed=True) for secret in self.secrets)
        self.keys = keys
        self.pairs = {ecc.ECPrivkey(s).get_public_key_hex(compressed=True): (s, True) for s in self.secrets}
        self.needed = 2 if count == 3 else 1
        self.redeem = self.witness = None
        if name == "p2wpkh":
            self.script, self.weight, self.type = b"\x00\x14" + hash160(keys[0]), 272, "p2wpkh"
        elif name == "p2pkh":
            self.script, self.weight, self.type = b"\x76\xa9\x14" + hash160(keys[0]) + b"\x88\xac", 593, "p2pkh"
        elif name == "p2sh-p2wpkh":
            self.redeem = b"\x00\x14" + hash160(keys[0])
            self.script, self.weight, self.type = b"\xa9\x14" + hash160(self.redeem) + b"\x87", 364, "p2wpkh-p2sh"
        else:
            inner = bytes.fromhex(multisig_script([key.hex() for key in keys], 2))
            if name == "p2wsh-2-of-3":
                self.witness = inner
                self.script, self.weight, self.type = b"\x00\x20" + hashlib.sha256(inner).digest(), 418, "p2wsh"
            elif name == "p2sh-p2wsh-2-of-3":
                self.redeem, self.witness = b"\x00\x20" + hashlib.sha256(inner).digest(), inner
                self.script, self.weight, self.type = b"\xa9\x14" + hash160(self.redeem) + b"\x87", 558, "p2wsh-p2sh"
            else:
                self.redeem = inner
                self.script, self.weight, self.type = b"\xa9\x14" + hash160(inner) + b"\x87", 1189, "p2sh"


def by_chance(name, random_source):
    """A script of this name, with keys by chance."""
    return Kind(name, [random_source.getrandbits(255).to_bytes(32, "big") for _ in range(signers_of(name))])


KINDS = ["p2wpkh", "p2pkh", "p2sh-p2wpkh", "p2wsh-2-of-3", "p2sh-2-of-3"]
SEARCHED = {"given", "exhausted", "partial"}
MARKS = {"manual": {"given"}, "changeless": SEARCHED, "weight": SEARCHED, "draw": SEARCHED | {"drawn"}, "auto": SEARCHED | {"drawn"}}


class Case:
    """A wallet and a request, made by chance."""

    def __init__(self, random_source, methods, kinds=None):
        r = random_source
        self.kinds = kinds or [by_chance(name, r) for name in r.sample(KINDS, r.randint(1, 4))]
        self.coins = {}
        earlier = []
        for _ in range(r.randint(2, 30)):
            kind = r.choice(self.kinds)
            value = r.randint(20_000, 2_000_000)
            data = transaction([(r.randbytes(32), 0)], [(value, kind.script)], FINAL)
            self.coins[(shown(double_sha256(data)), 0)] = (kind, value)
            earlier.append({"tx": data.hex(), "height": r.randint(1, 90)})
        entries = [{"script": kind.script.hex(), "weight": kind.weight} for kind in self.kinds]
        self.wallet = {"height": 100, "hash": "00" * 32, "scripts": entries, "change": r.choice(entries), "earlier": earlier}
        self.rate = r.randint(1_000, 30_000)
        total = sum(value for _, value in self.coins.values())
        parts = r.randint(1, 5)
        amount = max(1_000, r.randint(total // 20, total) // (2 * parts))
        recipients = [{"script": "0014" + r.randbytes(20).hex(), "amount": amount} for _ in range(parts)]
        self.method = r.choice(methods)
        self.request = {"recipients": recipients, "rate": self.rate, "method": self.method, "seed": r.randbytes(32).hex(),
                        "long_term": r.choice([1_000, 10_000, self.rate]), "group": r.random() < 0.2,
                        "tries": r.choice([1, 50, 20_000]), "replaceable": r.random() < 0.5,
                        "locktime": r.choice([0, 1, 877_004, 2**31 - 1])}
        self.listed = []
        if self.method == "manual" or r.random() < 0.2:
            self.listed = r.sample(sorted(self.coins), r.randint(1, len(self.coins)))
            self.request["coins"] = [f"{txid}:{index}" for txid, index in self.listed]

    def fund(self, program, folder):
        """The report's lines and the log's; or `none` or `unfinished` alone."""
        run, log = funded(program, folder, json.dumps(self.wallet), json.dumps(self.request))
        if run.status in (10, 11):
            assert (log is not None) == (run.status == 11), "a log where none is due, or none where one is"
            return run.printed.decode().split("\n")[0]
        if run.status != 0:
            raise AssertionError(f"status {run.status}: {run.printed}")
        write(folder, {"report.txt": run.printed})
        return [line.split(" ") for line in run.printed.decode().splitlines()], log.splitlines()

    def judge(self, report, log):
        """Whether mark, coins, change and log fit the request."""
        lines = {line[0]: line[-1] for line in report}
        mark = lines["funded"]
        assert mark in MARKS[self.method], f"{mark} by {self.method}"
        spent = [tuple(line[1].split(":")) for line in report if line[0] == "in"]
        spent = [(txid, int(index)) for txid, index in spent]
        assert set(self.listed) <= set(spent) and len(set(spent)) == len(spent), "the listed coins"
        assert mark != "given" or set(self.listed) == set(spent), "a coin that wasn't given"
        assert (mark == "given") == (lines["row"] == "0") == (lines["stage"] == "presets"), "row and stage of given coins"
        assert lines["stage"] != "changeless" or lines["change"] == "none", "a change at the stage without one"
        assert self.method != "changeless" or mark == "given" or lines["stage"] == "changeless", "another stage"
        letters = "".join(line[7:] for line in log if line.startswith("tokens "))
        assert log[0] == "fund-log 1" and log[-1] == "end", "the log's ends"
        assert mark == "partial" or letters.count("I") == int(lines["tries"]), "the tries of the log"
        assert mark != "given" or len(log) == 2, "a search of given coins"
        return mark


def sign(case, text):
    """What Electrum makes of a PSBT: the finished transaction, and the finished PSBT."""
    payment = tx_from_any(text)
    pairs = {}
    for txin in payment.inputs():
        kind, value = case.coins[(txin.prevout.txid.hex(), txin.prevout.out_idx)]
        assert txin.value_sats() == value and txin.scriptpubkey == kind.script, "a coin's value or script"
        assert (txin.utxo is None) == (kind.type in ("p2wpkh", "p2wsh")), "which of the two tells of the coin"
        txin.script_type, txin.pubkeys, txin.num_sig = kind.type, list(kind.keys), kind.needed
        if kind.redeem is not None:
            txin.redeem_script = kind.redeem
        if kind.witness is not None:
            txin.witness_script = kind.witness
        pairs.update(kind.pairs)
    payment.sign(pairs)
    payment.finalize_psbt()
    assert payment.is_complete(), "Electrum didn't finish it"
    return bytes.fromhex(payment.serialize_to_network()), payment.serialize_as_bytes(force_psbt=True)


def verify(case, data):
    """Verifies each signature of a finished transaction."""
    tx = CTransaction.deserialize(data)
    for n, txin in enumerate(tx.vin):
        kind, value = case.coins[(txin.prevout.hash[::-1].hex(), txin.prevout.n)]
        stack = [bytes(item) for item in tx.wit.vtxinwit[n].scriptWitness.stack] if not tx.wit.is_null() else []
        pushed = [bytes(item) for item in CScript(txin.scriptSig) if isinstance(item, bytes)]
        if kind.type in ("p2wpkh", "p2wpkh-p2sh"):
            code, amount, keys, signatures = b"\x76\xa9\x14" + hash160(kind.keys[0]) + b"\x88\xac", value, [stack[1]], stack[:1]
        elif kind.type in ("p2wsh", "p2wsh-p2sh"):
            code, amount, keys, signatures = kind.witness, value, kind.keys, [s for s in stack[:-1] if s]
        elif kind.type == "p2pkh":
            code, amount, keys, signatures = kind.script, None, [pushed[1]], pushed[:1]
        else:
            code, amount, keys, signatures = kind.redeem, None, kind.keys, [s for s in pushed[:-1] if s]
        assert len(signatures) == kind.needed and all(key in kind.keys for key in keys), "keys and signatures"
        if amount is None:
            digest = SignatureHash(CScript(code), tx, n, 1)
        else:
            digest = SignatureHash(CScript(code), tx, n, 1, amount=amount, sigversion=SIGVERSION_WITNESS_V0)
        for signature in signatures:
            assert any(CPubKey(key).verify(digest, signature[:-1]) for key in keys), "a signature"
    return tx


def weight_of(tx, data):
    bare = len(CTransaction(tx.vin, tx.vout, tx.nLockTime, tx.nVersion).serialize())
    return 3 * bare + len(data)


def settled(program, words, folder, data):
    """The status and the lines with which a program judges the file of a signed transaction."""
    write(folder, {"signed": data})
    run = called(program, words, folder)
    return run.status, run.printed.decode().splitlines()


def others(tx, random_source):
    """The same transaction with one thing changed, and how `settle` names that."""
    for part in ("output", "sequence", "input"):
        other = CMutableTransaction.from_tx(tx)
        index = random_source.randrange(len(other.vout) if part == "output" else len(other.vin))
        if part == "output":
            script = bytearray(other.vout[index].scriptPubKey)
            script[random_source.randrange(len(script))] ^= 1
            other.vout[index].scriptPubKey = CScript(bytes(script))
        elif part == "sequence":
            other.vin[index].nSequence ^= 1
        else:
            other.vin[index].prevout.n ^= 1
        yield f"fault settle Differs {'Output' if part == 'output' else 'Input'} {index}", other.serialize()


def judge_settled(program, folder, tx, data, psbt, spare):
    """Whether `settle` takes a signed payment and no other, and `ninelace settle` too in each form."""
    words = ["settle", "wallet.json", "request.json", "report.txt", "signed"]
    status, lines = settled(program, words, folder, data.hex().encode())
    assert status == 0 and lines[-1] == f"spare {spare}", f"settle: {status} {lines}"
    for line, other in others(tx, random.Random(data)):
        assert settled(program, words, folder, other.hex().encode()) == (13, [line]), f"settle of another payment: {line}"
    ninelace = os.environ.get("NINELACE")
    if ninelace is None:
        return
    words = ["settle", "--wallet", "wallet.json", "--request", "request.json", "--report", "report.txt", "signed"]
    tables = [settled(ninelace, words, folder, file) for file in (data.hex().encode(), base64.b64encode(psbt), psbt)]
    assert tables[0][0] == 0 and tables[0][1][-1] == f"spare   {spare} WU", f"ninelace settle: {tables[0]}"
    assert tables[1] == tables[0] and tables[2] == tables[0], f"ninelace settle of the PSBT: {tables[1:]}"


def try_one(case, program, folder):
    """Funds, signs and verifies; the mark, and how much less than declared it weighs."""
    found = case.fund(program, folder)
    if isinstance(found, str):
        return found, 0
    report, log = found
    mark = case.judge(report, log)
    lines = {line[0]: line[-1] for line in report}
    data, psbt = sign(case, lines["psbt"])
    tx = verify(case, data)
    declared, weight = int(lines["weight"]), weight_of(tx, data)
    spent = sum(case.coins[(txin.prevout.hash[::-1].hex(), txin.prevout.n)][1] for txin in tx.vin)
    fee = spent - sum(out.nValue for out in tx.vout)
    paid = [(out.scriptPubKey.hex(), out.nValue) for out in tx.vout]
    due = [(one["script"], one["amount"]) for one in case.request["recipients"]]
    if lines["change"] != "none":
        due.append((case.wallet["change"]["script"], int(lines["change"])))
    coins = [[f"{txin.prevout.hash[::-1].hex()}:{txin.prevout.n}"] for txin in tx.vin]
    assert coins == [line[1:2] for line in report if line[0] == "in"], "the inputs"
    assert fee == int(lines["fee"]), "the fee"
    assert paid == due, "the recipients and the change"
    assert weight <= declared, f"it weighs {weight}, and {declared} were declared"
    assert 1000 * fee >= case.rate * -(-weight // 4), "the fee is below the rate"
    # a payment's weight has two units for the marker and flag of the segregated form, which an old form lacks
    marked = 0 if data[4:6] == b"\x00\x01" else 2
    judge_settled(program, folder, tx, data, psbt, declared - weight - marked)
    return mark, declared - weight


def main():
    program = os.path.abspath(sys.argv[1])
    count = int(sys.argv[2]) if len(sys.argv) > 2 else 100
    seed = int(sys.argv[3]) if len(sys.argv) > 3 else 1
    methods = sys.argv[4:] or sorted(MARKS)
    random_source = random.Random(seed)
    ends, slack = collections.Counter(), 0
    with tempfile.TemporaryDirectory() as folder:
        for number in range(count):
            case = Case(random_source, methods)
            try:
                end, less = try_one(case, program, folder)
            except AssertionError as wrong:
                print(f"WRONG, request {number} of seed {seed}, {case.method}: {wrong}")
                return 1
            ends[(case.method, end)] += 1
            slack = max(slack, less)
    for (method, end), times in sorted(ends.items()):
        print(f"{times:6} {method} {end}")
    without = sum(times for (_, end), times in ends.items() if end in ("none", "unfinished"))
    print(f"{count} requests of seed {seed}: {count - without} funded, signed and verified, {without} without a payment; "
          f"at most {slack} weight units less than declared")
    return 0


if __name__ == "__main__":
    sys.exit(main())
