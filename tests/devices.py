#!/usr/bin/python3
"""Has completed PSBTs signed by what knows keys by their paths alone; outside the gate.

    tests/devices.py PROGRAM NINELACE [COUNT] [SEED]

PROGRAM is a built fund_cli, and NINELACE a built ninelace. It wants Debian's python3-electrum and python3-bitcoinlib. COUNT
requests (50) are made from the SEED (1) as tests/signers.py makes them, over wallets of six kinds of scripts whose keys have
paths, and funded. `complete` adds the earlier transactions and what the keys file tells: the pairs are compared with those of
tests/pages/keyed.py. Then each payment is signed:

- by a signer that has two of three master keys, and finds its keys by their fingerprints and paths. Without the keys file it signs
  nothing and knows no output; with it, it signs each input and knows the change. Each signature is verified, and `settle` has to take
  the payment.
- where all coins are of one kind, also by Electrum's stores for Trezor, KeepKey and Ledger up to the device, a stand-in that signs
  by the paths that it is handed. Electrum's wallet there has never seen these addresses: it learns them by their paths. The device
  has to take the change for its own, and to show the other outputs.

Electrum's store of Trezor keys has to refuse a PSBT that lacks earlier transactions.
"""
import base64
import collections
import json
import os
import random
import sys
import tempfile

from electrum import keystore
from electrum.transaction import tx_from_any
from electrum.util import UserFacingException

import signers
from harness.key_wallets import ACCOUNTS, Case, account_of, described, electrum_wallet, event_loop
from harness.path_signer import Signer, finished, root_of
from harness.stand_ins import STORES, Device
from lib.programs import called, write
from lib.psbt import maps_in, paid_by, read_psbt, spent_by, unsigned_of
from pages import keyed

ROOTS = [root_of(random.Random(number)) for number in range(3)]  # master keys


# ---- the program


def completed(ninelace, text, folder, *keys):
    """The PSBT that `complete` makes of a text, or of bytes, with the keys file where it is named."""
    write(folder, {"payment.psbt": text})
    run = called(ninelace, ["complete", "payment.psbt", "wallet.json", "blocks.dat", *keys], folder)
    assert run.status == 0, f"status {run.status}: {run.printed}"
    return run.printed.decode().strip()


def made_whole(case, ninelace, text, folder):
    """The PSBT with earlier transactions and with keys; its pairs are those that are due."""
    write(folder, {"keys.json": json.dumps(case.keys)})
    plain, whole = completed(ninelace, text, folder), completed(ninelace, text, folder, "keys.json")
    before, after = (read_psbt(base64.b64decode(one)) for one in (plain, whole))
    spent, paid = ([script for _, script in told] for told in (spent_by(before), paid_by(before)))
    assert maps_in(after) == keyed.added(spent, paid, maps_in(before), case.keys), "other pairs than those that are due"
    assert completed(ninelace, base64.b64decode(text), folder, "keys.json") == whole, "of its bytes another PSBT is made"
    return plain, whole


# ---- a signer by fingerprint and path


def change_of(case, data):
    """The places of the outputs that pay to the change script."""
    return [number for number, (_, script) in enumerate(paid_by(read_psbt(data))) if script == case.change.script]


def judge_signed(case, program, ninelace, folder, lines, psbt):
    """Whether a PSBT with signatures is the payment: its signatures, its weight, and what `settle` says."""
    data, final = finished(psbt)
    tx = signers.verify(case, data)
    weight, declared = signers.weight_of(tx, data), int(lines["weight"])
    assert weight <= declared, f"it weighs {weight}, and {declared} were declared"
    marked = 0 if data[4:6] == b"\x00\x01" else 2
    os.environ["NINELACE"] = ninelace
    signers.judge_settled(program, folder, tx, data, final, declared - weight - marked)


def sign_by_paths(case, program, ninelace, folder, lines, plain, whole):
    """Signs by two master keys that know nothing of the wallet."""
    signer = Signer(ROOTS[:2])
    before, after = base64.b64decode(plain), base64.b64decode(whole)
    assert signer.sign(before)[1] == 0 and not signer.own_outputs(before), "it signs without paths"
    signed, count = signer.sign(after)
    assert count == len(read_psbt(after).inputs), f"it signs {count} inputs"
    assert signer.own_outputs(after) == change_of(case, after), "another output is taken for the change"
    judge_signed(case, program, ninelace, folder, lines, signed)


# ---- Electrum's stores


def hardware(account, number, name):
    """What a wallet file of Electrum has of a device's store."""
    return {**described(account, number), "type": "hardware", "hw_type": f"{name}{number}", "label": "stand-in"}


def wallet_with(account, name, devices, folder):
    """A wallet of Electrum with a store before each device, which has made one address of each branch."""
    for number, device in enumerate(devices):
        keystore.register_keystore(f"{name}{number}", lambda description, device=device: STORES[name](description, device))
    stores = [hardware(account, number, name) for number in range(len(devices))]
    stores += [described(account, number) for number in range(len(devices), len(account.roots))]
    return electrum_wallet(stores, folder)


def sign_by_stores(case, name, plain, whole, folder):
    """Has a payment signed by the devices behind a wallet of Electrum."""
    account = case.accounts[0]
    devices = [Device(root) for root in account.roots[:2]]
    wallet = wallet_with(account, name, devices, folder)
    stores = wallet.get_keystores()[:len(devices)]
    before, payment = tx_from_any(plain), tx_from_any(whole)
    before.add_info_from_wallet(wallet)
    assert not any(store.can_sign(before) for store in stores), "a store signs without paths"
    assert not any(output.is_mine for output in before.outputs()), "the change is known without a path"
    payment.add_info_from_wallet(wallet)
    for store, device in zip(stores, devices):
        assert store.can_sign(payment), "a store finds no key"
        store.sign_transaction(payment, None)
        judge_device(case, name, whole, device)
    payment.finalize_psbt()
    assert payment.is_complete(), "Electrum didn't finish it"
    signers.verify(case, bytes.fromhex(payment.serialize_to_network()))


def judge_device(case, name, whole, device):
    """Whether a device was handed each path, and took the change for its own."""
    data = base64.b64decode(whole)
    change = change_of(case, data)
    outputs = set(range(len(paid_by(read_psbt(data)))))
    root = device.root.calc_fingerprint_of_this_node().hex()
    entries = {kind.script: kind.entry for kind in [*case.kinds, case.change]}
    spent = [case.coins[(txin.prevout.txid.hex(), txin.prevout.out_idx)][0].script for txin in tx_from_any(whole).inputs()]
    due = {path_in(entries[script], root) for script in spent}
    if name == "ledger" and case.accounts[0].name.endswith("2-of-3"):
        # Electrum asks a Ledger for no change of P2SH; and that such a device knows the script of several keys isn't told by one path
        assert set(device.paths) >= due, "another path"
        return
    assert set(device.paths) == due | ({path_in(case.change.entry, root)} if change else set()), "another path"
    assert device.own == change and set(device.shown) == outputs - set(change), "another output is taken for the change"


def path_in(entry, fingerprint):
    """The steps of the path of an entry's key, as a device is handed them."""
    path = next(key["path"] for key in entry["keys"] if key["fingerprint"] == fingerprint)
    return tuple(keystore.convert_bip32_path_to_list_of_uint32(path))


def refused_before(case, text):
    """Whether Electrum's store of Trezor keys refuses the PSBT, which is so where it lacks an earlier transaction."""
    payment = tx_from_any(text)
    if all(txin.utxo is not None for txin in payment.inputs()):
        return False
    device = Device(case.accounts[0].roots[0])
    store = STORES["trezor"](hardware(case.accounts[0], 0, "trezor"), device)
    try:
        store.sign_transaction(payment, None)
    except UserFacingException as refusal:
        assert str(refusal) == "Missing previous tx.", refusal
        return True
    raise AssertionError("the store takes what lacks a transaction")


# ---- cases


def case_of(source, number):
    """A payment of one kind, or of several; every other one of several is asked for in version 2."""
    names = sorted(ACCOUNTS)
    several = number % 2 == 1
    chosen = source.sample(names, source.randint(2, len(names))) if several else [names[number // 2 % len(names)]]
    case = Case(source, sorted(signers.MARKS), [account_of(name, ROOTS) for name in chosen])
    if several and number % 4 == 3:
        case.request["psbt"] = 2
    return case


def try_one(case, program, ninelace, folder):
    """Funds a case, completes it and has it signed; answers the mark, and whether a store refused the PSBT as it was."""
    found = case.fund(program, folder)
    if isinstance(found, str):
        return found, ""
    lines = {line[0]: line[-1] for line in found[0]}
    text = lines["psbt"]
    version = case.request.get("psbt", 0)
    refused = version == 0 and refused_before(case, text)
    plain, whole = made_whole(case, ninelace, text, folder)
    assert unsigned_of(read_psbt(base64.b64decode(whole))) == unsigned_of(read_psbt(base64.b64decode(text))), "another payment"
    sign_by_paths(case, program, ninelace, folder, lines, plain, whole)
    if len(case.accounts) == 1:
        for name in sorted(STORES):
            sign_by_stores(case, name, plain, whole, folder)
    told = f"{case.accounts[0].name}, by three stores too" if len(case.accounts) == 1 else f"several kinds, version {version}"
    return f"signed, {told}", ", refused before" if refused else ""


def main():
    program, ninelace = map(os.path.abspath, sys.argv[1:3])
    count = int(sys.argv[3]) if len(sys.argv) > 3 else 50
    seed = int(sys.argv[4]) if len(sys.argv) > 4 else 1
    source, ends = random.Random(seed), collections.Counter()
    with tempfile.TemporaryDirectory() as folder, event_loop():
        for number in range(count):
            case = case_of(source, number)
            try:
                ends[try_one(case, program, ninelace, folder)] += 1
            except AssertionError as wrong:
                print(f"WRONG, request {number} of seed {seed}: {wrong}")
                return 1
    for (end, refused), times in sorted(ends.items()):
        print(f"{times:6} {end}{refused}")
    return 0


if __name__ == "__main__":
    sys.exit(main())
