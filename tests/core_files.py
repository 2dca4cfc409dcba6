#!/usr/bin/env python3
"""Tries tools/core_to_files.py on saved answers of a node. They were made after the forms that Bitcoin Core documents
for these calls, by this script, and not by a node.

    tests/core_files.py [PROGRAM [NINELACE]]
    tests/core_files.py --keep FOLDER

With PROGRAM, a built fund_cli, it also lists the coins of the files that were made: these must be the ones that the
node lists as unspent. With NINELACE, a built ninelace, a PSBT that spends them all is completed by these files: it must get what the
keys file tells. With --keep it leaves answers in FOLDER, for trying the tool by hand as docs/USING.md says: those
of a node that watches the address of BIP 173's examples, whose secret key is 1.
"""
import base64
import hashlib
import json
import os
import re
import subprocess
import sys
import tempfile

from harness.descriptors import C, D, KEY, KINDS, Kind, PARENTS, STRANGE, XPUBS, path
from lib.bitcoin import double_sha256, point_of, read_tx, shown, transaction
from lib.programs import TOP, called, write
from lib.psbt import Psbt, maps_in, psbt_bytes, read_psbt
from pages import keyed

TOOL = TOP / "tools" / "core_to_files.py"
TIP = 877_004
NESTED, WITNESS, DEEP = KINDS["P2WPKH in P2SH"], KINDS["2 keys in P2WSH, one without a path"], KINDS["2 keys in P2WSH in P2SH"]
SPENT_BY_PENDING = Kind("0014" + "77" * 20, f"wpkh([d34db33f/84h/0h/0h/0/9]{KEY})#0000", 272, {}, {"keys": [path(KEY, "d34db33f", "m/84h/0h/0h/0/9")]})
TURNED = f"5221{D}21{C}52ae"
# change scripts, with what getaddressinfo tells: `hex` is the redeem script or the witness script
CHANGES = {
    "change in P2SH": Kind(NESTED.script.replace("336c", "336d"), NESTED.descriptor, 364, {"hex": NESTED.told["redeemScript"]}, NESTED.keys),
    "change in P2WSH": Kind("0020" + hashlib.sha256(bytes.fromhex(TURNED)).hexdigest(), WITNESS.descriptor, 384, {"hex": TURNED},
                            {**WITNESS.keys, "witness": TURNED}),
    "change in P2WSH in P2SH": Kind(DEEP.script.replace("b7f5", "b7f6"), DEEP.descriptor, 524,
                                    {"hex": DEEP.told["redeemScript"], "embedded": {"hex": DEEP.told["witnessScript"]}}, DEEP.keys),
}
# BIP 173, 'Examples': the address of the public key whose secret key is 1, and its script
KNOWN_ADDRESS, KNOWN_SCRIPT = "bc1qw508d6qejxtdg4y5r3zarvary0c5xw7kv8f3t4", "0014751e76e8199196d454941c45d1b3a323f1433bd6"
KNOWN_KEY = "0279be667ef9dcbbac55a06295ce870b07029bfcdb2dce28d959f2815b16f81798"
KNOWN_VALUES = [51_100, 250_000, 80_000, 33_000, 120_000, 640_000]


def address_of(script):
    return "address-" + script


def strange_script(number):
    return "0020" + "66" * 31 + f"{number:02x}"


def made(points, outputs):
    """The txid and the hex of a transaction that spends these outpoints, and pays scripts in hex."""
    spent = [(bytes.fromhex(txid)[::-1], index) for txid, index in points]
    data = transaction(spent, [(value, bytes.fromhex(script)) for script, value in outputs])
    return shown(double_sha256(data)), data.hex()


class Saved:
    """A folder of answers."""

    def __init__(self, folder):
        self.folder = folder

    def put(self, answer, call, *words):
        name = "-".join([call, *[re.sub(r"[^0-9A-Za-z]", "_", word) for word in words]]) + ".json"
        with open(os.path.join(self.folder, name), "w", encoding="utf-8") as file:
            json.dump(answer, file)

    def put_transaction(self, txid, text, outputs, confirmations):
        told = {"txid": txid, "confirmations": confirmations, "hex": text, "decoded": {"vout": [
            {"n": n, "scriptPubKey": {"hex": script, "address": address_of(script)}} for n, (script, _) in enumerate(outputs)]}}
        if confirmations > 0:
            told["blockheight"] = TIP + 1 - confirmations
        self.put(told, "gettransaction", txid, "true", "true")


def saved_answers(folder):
    """Saves the answers of a made node, and returns the coins that it lists and may be spent by listed scripts."""
    saved = Saved(folder)
    saved.put({"chain": "main", "blocks": TIP}, "getblockchaininfo")
    saved.put("ab" * 32, "getblockhash", str(TIP))
    coins = []

    def make(outputs, confirmations, inputs=(("01" * 32, 0),)):
        txid, text = made(inputs, outputs)
        saved.put_transaction(txid, text, outputs, confirmations)
        return txid

    def coin(txid, vout, kind, confirmations, value):
        coins.append({"txid": txid, "vout": vout, "address": address_of(kind.script), "scriptPubKey": kind.script,
                      "amount": value / 1e8, "confirmations": confirmations, "spendable": True, "solvable": True,
                      "desc": kind.descriptor, "parent_descs": PARENTS[:3], "safe": True, **kind.told})

    # one coin of each kind, each in a transaction with an output of the same script that is spent by now
    for n, kind in enumerate(KINDS.values()):
        txid = make([(kind.script, 100_000 + n), (kind.script, 5_000)], 11 + n)
        coin(txid, 0, kind, 11 + n, 100_000 + n)
    # coins whose input's weight isn't known
    for n, descriptor in enumerate(STRANGE):
        kind = Kind(strange_script(n), descriptor, None, {}, "")
        txid = make([(kind.script, 70_000 + n)], 30)
        coin(txid, 0, kind, 30, 70_000 + n)
    # an earlier coin that a pending transaction spends, and the change of that one
    before = make([(SPENT_BY_PENDING.script, 90_000)], 20)
    mine = KINDS["P2WPKH"]
    script, descriptor = mine.script, mine.descriptor
    pending = make([("0014" + "99" * 20, 40_000), (script, 49_000)], 0, [(before, 0)])
    coin(pending, 1, mine, 0, 49_000)
    saved.put({"scriptPubKey": SPENT_BY_PENDING.script, "ismine": True, "desc": SPENT_BY_PENDING.descriptor, "parent_desc": PARENTS[3]},
              "getaddressinfo", address_of(SPENT_BY_PENDING.script))
    saved.put({"scriptPubKey": script, "ismine": True, "desc": descriptor}, "getaddressinfo", "change")
    for name, kind in CHANGES.items():
        saved.put({"scriptPubKey": kind.script, "ismine": True, "desc": kind.descriptor, **kind.told}, "getaddressinfo", name)
    saved.put({"scriptPubKey": script, "ismine": False}, "getaddressinfo", "strangers")
    saved.put(coins, "listunspent", "0", "9999999", "[]", "true")
    saved.put([{"txid": pending, "confirmations": 0, "category": "send"}], "listtransactions", "*", "10000", "0", "true")
    saved.put([], "listlockunspent")
    return [f"{c['txid']}:{c['vout']}" for c in coins if c["desc"] not in STRANGE], pending


def kept_answers(folder):
    """Saves the answers of a made node that watches the known address, and returns the coins that it lists."""
    saved = Saved(folder)
    saved.put({"chain": "main", "blocks": TIP}, "getblockchaininfo")
    saved.put("ab" * 32, "getblockhash", str(TIP))
    coins, descriptor = [], f"wpkh({KNOWN_KEY})"
    for n, value in enumerate(KNOWN_VALUES):
        # the second output is spent by now
        outputs = [("0014" + "99" * 20, 7_000), (KNOWN_SCRIPT, 5_000), (KNOWN_SCRIPT, value)]
        txid, text = made([("%02x" % (n + 1) * 32, n)], outputs)
        saved.put_transaction(txid, text, outputs, 10 + 5 * n)
        coins.append({"txid": txid, "vout": 2, "address": KNOWN_ADDRESS, "scriptPubKey": KNOWN_SCRIPT, "amount": value / 1e8,
                      "confirmations": 10 + 5 * n, "spendable": False, "solvable": True, "desc": descriptor, "safe": True})
    saved.put({"scriptPubKey": KNOWN_SCRIPT, "ismine": True, "desc": descriptor}, "getaddressinfo", KNOWN_ADDRESS)
    saved.put(coins, "listunspent", "0", "9999999", "[]", "true")
    saved.put([], "listtransactions", "*", "10000", "0", "true")
    saved.put([], "listlockunspent")
    return [f"{c['txid']}:{c['vout']}" for c in coins]


def tool(folder, change, out, *more):
    words = [sys.executable, TOOL, "--saved", folder, "--change", change, "--out", out + ".json", "--block-file", out + ".dat", *more]
    return subprocess.run(words, capture_output=True, text=True)


def check(holds, what):
    print(("ok   " if holds else "WRONG ") + what)
    return holds


def listing(program, out):
    """What the program lists of files that were made, and the coins of it."""
    listed = called(program, ["coins", out + ".json", out + ".dat"], os.path.dirname(out)).printed.decode()
    return listed, sorted(line.split()[1] for line in listed.splitlines() if line.startswith("coin "))


def check_kept():
    """The answers that are kept make files too; with PROGRAM it lists their coins."""
    with tempfile.TemporaryDirectory() as folder:
        coins, out = kept_answers(folder), os.path.join(folder, "made")
        run = tool(folder, KNOWN_ADDRESS, out)
        right = check(run.returncode == 0 and "6 coins of 1 scripts" in run.stderr, "answers that are kept make files")
        if len(sys.argv) > 1:
            right &= check(listing(sys.argv[1], out)[1] == sorted(coins), "the program lists their coins")
    return right


def read_json(name):
    with open(name, encoding="utf-8") as file:
        return json.load(file)


def check_files(out, said):
    """What the wallet file and the block file hold, and whether what was left out is named."""
    wallet = read_json(out + ".json")
    weights = {entry["script"]: entry["weight"] for entry in wallet["scripts"]}
    right = True
    for name, kind in KINDS.items():
        right &= check(weights.get(kind.script) == kind.weight, f"an input of {name} weighs {kind.weight}")
    for number, descriptor in enumerate(STRANGE):
        left = strange_script(number) not in weights and f"the weight of an input of `{descriptor}` isn't known" in said
        right &= check(left, f"a coin of unknown weight is left out, and named: {descriptor[:20]}..")
    right &= check((wallet["height"], wallet["hash"]) == (TIP, "ab" * 32), "height and hash are the tip's")
    right &= check(len(wallet["locked"]) == len(KINDS), "what is spent by now is locked")
    right &= check(len(wallet["pending"]) == 1 and len(wallet["earlier"]) == len(KINDS) + 1, "earlier and pending transactions")
    right &= check(SPENT_BY_PENDING.script in weights, "the script of a coin that a pending transaction spends is listed")
    return right & check(os.path.getsize(out + ".dat") == 0, "the block file is empty")


def check_keys(keys, said):
    """What the keys file holds, and whether each script without an entry is named with the cause."""
    entries = {entry["script"]: entry for entry in keys["scripts"]}
    right = check(len(entries) == len(keys["scripts"]), "no script has two entries")
    for name, kind in {**KINDS, "what is spent": SPENT_BY_PENDING}.items():
        if isinstance(kind.keys, str):
            named = f"no keys of {kind.script}: {kind.keys} (`{kind.descriptor}`)" in said
            right &= check(kind.script not in entries and named, f"{name} has no entry, and is named: {kind.keys}")
        else:
            right &= check(entries.get(kind.script) == {"script": kind.script, **kind.keys}, f"the entry of {name}")
    return right & check(keys["xpubs"] == XPUBS, "the extended keys of multi-signatures, each once")


def check_taken(ninelace, folder, out, coins):
    """Whether the program takes the keys file, and puts into a PSBT of all coins what it tells."""
    points = [point_of(coin) for coin in coins]
    paid = [bytes.fromhex(KINDS[name].script) for name in ("P2WPKH", "P2TR", "2 keys in P2WSH in P2SH")]
    whole = {read_tx(bytes.fromhex(text)).txid: bytes.fromhex(text) for text in transactions_in(read_json(out + ".json"))}
    psbt = Psbt(0, [(b"\x00", transaction(points, [(1_000, script) for script in paid]))], [[] for _ in points], [[] for _ in paid])
    write(folder, {"all.psbt": psbt_bytes(psbt)})
    run = called(ninelace, ["complete", "all.psbt", out + ".json", out + ".dat", out + "3.keys"], folder)
    if not check(run.status == 0, f"the program takes the keys file: status {run.status} {run.printed[:60]}"):
        return False
    spent = [read_tx(whole[txid]).outputs[index][1] for txid, index in points]
    before = psbt._replace(inputs=[[(b"\x00", whole[txid])] for txid, _ in points])
    due = keyed.added(spent, paid, maps_in(before), read_json(out + "3.keys"))
    return check(maps_in(read_psbt(base64.b64decode(run.printed))) == due, "the PSBT has what the keys file tells")


def transactions_in(wallet):
    return [*(one["tx"] for one in wallet["earlier"]), *wallet["pending"]]


def check_changes(folder, out):
    """The entry of a change script, of which getaddressinfo tells otherwise than listunspent."""
    right = True
    for name, kind in CHANGES.items():
        run = tool(folder, name, out + name, "--keys", out + name + ".keys")
        entries = [entry for entry in read_json(out + name + ".keys")["scripts"] if entry["script"] == kind.script]
        right &= check(run.returncode == 0 and entries == [{"script": kind.script, **kind.keys}], f"the entry of {name}")
    return right


def main():
    if sys.argv[1:2] == ["--keep"]:
        os.makedirs(sys.argv[2], exist_ok=True)
        kept_answers(sys.argv[2])
        return 0
    right = check_kept()
    with tempfile.TemporaryDirectory() as folder:
        coins, pending = saved_answers(folder)
        out = os.path.join(folder, "made")
        run = tool(folder, "change", out)
        right &= check(run.returncode == 0, "the files are made")
        right &= check_files(out, run.stderr)
        right &= check(tool(folder, "change", out).returncode == 1, "no file is overwritten")
        right &= check("isn't an address of this wallet" in tool(folder, "strangers", out + "2").stderr, "a stranger's change is refused")
        keyed = tool(folder, "change", out + "3", "--keys", out + "3.keys")
        same = [read_json(out + end) for end in (".json", "3.json")]
        right &= check(keyed.returncode == 0 and same[0] == same[1], "with --keys the wallet file is the same")
        right &= check_keys(read_json(out + "3.keys"), keyed.stderr)
        right &= check(tool(folder, "change", out + "4", "--keys", out + "3.keys").returncode == 1, "no keys file is overwritten")
        right &= check_changes(folder, out)
        if len(sys.argv) > 1:
            listed, found = listing(sys.argv[1], out)
            right &= check(found == sorted(coins), "the program lists the node's coins")
            right &= check(f"payment {pending} pending" in listed, "the program lists the pending payment")
            right &= check(f"coin {pending}:1 49000 0 mine safe 1 1" in listed, "its change is the wallet's own")
        if len(sys.argv) > 2:
            right &= check_taken(os.path.abspath(sys.argv[2]), folder, out, coins)
    return 0 if right else 1


if __name__ == "__main__":
    sys.exit(main())
