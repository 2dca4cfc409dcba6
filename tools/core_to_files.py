#!/usr/bin/env python3
"""Makes Ninelace's wallet file and block file from the answers of a Bitcoin Core node, and its keys file if that is asked for.

    tools/core_to_files.py --wallet NAME --change ADDRESS --out wallet.json --block-file blocks.dat [--keys keys.json]
    tools/core_to_files.py --saved FOLDER --change ADDRESS --out wallet.json --block-file blocks.dat [--keys keys.json]

The first form asks the node by `bitcoin-cli`; `--save FOLDER` keeps its answers. The second form reads answers that
were kept so, and needs no node. Both use these calls, all of which only read: getblockchaininfo, listunspent,
listlockunspent, gettransaction, listtransactions, getaddressinfo, getblockhash, getblock.

The coins are those of `listunspent`. Each script's input weight is worked out from its descriptor; coins of a script
whose weight isn't known are left out and named. What an earlier transaction pays to a listed script and Core doesn't
list, because it is spent, is locked. With `--last-blocks N` the last N blocks go into the block file, otherwise that
file is empty and the wallet file has the chain's tip.

With `--keys FILE` the same answers also give the keys of each listed script with their paths, and its redeem and witness
script. What a descriptor doesn't tell is named.
"""
import argparse
import json
import os
import re
import shlex
import subprocess
import sys

import descriptors  # which makes tests/lib known too
from lib.bitcoin import read_tx, record, shown

MOST_TRANSACTIONS = 100_000


class Refused(Exception):
    """What stops the tool, in a sentence for its user."""


# ---- the node's answers

class Node:
    """Answers of a node, asked by bitcoin-cli or read from a folder."""

    def __init__(self, command, saved, save):
        self.command, self.saved, self.save = command, saved, save

    @staticmethod
    def name_of(call, words):
        """The file that keeps the answer to a call with these words."""
        return "-".join([call, *[re.sub(r"[^0-9A-Za-z]", "_", word) for word in words]]) + ".json"

    def ask(self, call, *words, unknown=None):
        """The answer to a call; None where the node refuses it with this text, which says that it knows no such thing."""
        name = self.name_of(call, words)
        if self.saved is not None:
            path = os.path.join(self.saved, name)
            if not os.path.exists(path):
                raise Refused(f"{path} isn't there: the answer of `{' '.join([call, *words])}` wasn't saved")
            with open(path, encoding="utf-8") as file:
                return json.load(file)
        try:
            run = subprocess.run([*self.command, call, *words], capture_output=True, text=True)
        except OSError as error:
            raise Refused(f"{self.command[0]} can't be run: {error.strerror} (--cli names another command)")
        if run.returncode != 0 and (unknown is None or unknown not in run.stderr):
            raise Refused(f"`{' '.join([call, *words])}` failed: {run.stderr.strip()}")
        text = run.stdout.strip() if run.returncode == 0 else "null"
        try:
            answer = json.loads(text)
        except ValueError:
            answer = text  # bitcoin-cli prints a bare text without quotes
        if self.save is not None:
            with open(os.path.join(self.save, name), "w", encoding="utf-8") as file:
                json.dump(answer, file, indent=1)
        return answer


# ---- transactions

def inputs_and_outputs(data):
    """The outpoints that a transaction spends, and the script of each of its outputs (BIP 144)."""
    try:
        tx = read_tx(data)
    except (AssertionError, IndexError) as wrong:
        raise Refused("a transaction that the node gave is none") from wrong
    if tx.end != len(data):
        raise Refused("a transaction that the node gave is cut off, or something stands after it")
    return [(shown(txid), index) for txid, index in tx.inputs], [script.hex() for _, script in tx.outputs]


def parents_first(transactions):
    """Transactions by txid, each after those whose outputs it spends."""
    ordered, seen = [], set()

    def put(txid):
        if txid in seen or txid not in transactions:
            return
        seen.add(txid)
        for parent, _ in inputs_and_outputs(bytes.fromhex(transactions[txid]))[0]:
            put(parent)
        ordered.append(txid)

    for txid in transactions:
        put(txid)
    return ordered


# ---- the files

class Wallet:
    """What the node says of a wallet, gathered for the two files."""

    def __init__(self, node, last_blocks, say):
        self.node, self.say = node, say
        chain = node.ask("getblockchaininfo")
        if chain["chain"] != "main":
            raise Refused(f"the node is on the chain `{chain['chain']}`: only the main network's addresses are read")
        self.height = chain["blocks"] - last_blocks
        if self.height < 0:
            raise Refused("--last-blocks is more than the chain has")
        self.hashes = [node.ask("getblockhash", str(h)) for h in range(self.height, chain["blocks"] + 1)]
        self.weights, self.unspent, self.transactions, self.outputs = {}, set(), {}, {}
        self.told = {}

    def add_script(self, told, named):
        """Lists the script of a coin or an address, if the weight of an input that spends it is known."""
        script, descriptor = told["scriptPubKey"], told.get("desc")
        if script in self.weights:
            return True
        weight = descriptors.weight_of(descriptor) if descriptor else None
        if weight is None:
            self.say(f"left out {named}: the weight of an input of `{descriptor or 'no descriptor'}` isn't known")
            return False
        self.weights[script], self.told[script] = weight, told
        return True

    def add_transaction(self, txid):
        """Keeps a transaction, if it is one of the wallet, with the height of its block, or None where it has none."""
        if txid in self.transactions:
            return
        if len(self.transactions) >= MOST_TRANSACTIONS:
            raise Refused(f"the wallet has more than {MOST_TRANSACTIONS} transactions with coins")
        told = self.node.ask("gettransaction", txid, "true", "true", unknown="non-wallet transaction")
        if told is None:
            return
        height = told.get("blockheight") if told["confirmations"] > 0 else None
        if told["confirmations"] > 0 and height is None:
            raise Refused(f"gettransaction {txid} tells no blockheight (Bitcoin Core 0.20 or later does)")
        if told["confirmations"] < 0:
            self.say(f"left out transaction {txid}: it conflicts with a block")
            return
        self.transactions[txid] = (told["hex"], height)
        self.outputs[txid] = told["decoded"]["vout"]

    def add_coins(self):
        """The coins that Core lists, confirmed or not, and the transactions that make them."""
        for coin in self.node.ask("listunspent", "0", "9999999", "[]", "true"):
            named = f"{coin['txid']}:{coin['vout']}"
            if self.add_script(coin, named):
                self.unspent.add((coin["txid"], coin["vout"]))
                self.add_transaction(coin["txid"])

    def add_pending(self):
        """The unconfirmed transactions of the wallet, also those that leave it no coin, and the coins that they spend."""
        for entry in self.node.ask("listtransactions", "*", "10000", "0", "true"):
            if entry.get("confirmations") == 0 and not entry.get("abandoned", False):
                self.add_transaction(entry["txid"])
        for text in [text for text, height in self.transactions.values() if height is None]:
            for parent, index in inputs_and_outputs(bytes.fromhex(text))[0]:
                self.add_transaction(parent)
                self.add_spent(parent, index)

    def add_spent(self, txid, index):
        """Lists the script of an output that a pending transaction spends, if it is one of the wallet's."""
        if txid not in self.outputs or index >= len(self.outputs[txid]):
            return
        script = self.outputs[txid][index]["scriptPubKey"]
        if script["hex"] in self.weights or "address" not in script:
            return
        told = self.node.ask("getaddressinfo", script["address"])
        if told.get("ismine"):
            self.add_script(told, f"{txid}:{index}")

    def change(self, address):
        told = self.node.ask("getaddressinfo", address)
        if not told.get("ismine"):
            raise Refused(f"{address} isn't an address of this wallet: change paid there would be lost")
        if not self.add_script(told, address):
            raise Refused(f"the weight of an input that spends {address} isn't known")
        return {"script": told["scriptPubKey"], "weight": self.weights[told["scriptPubKey"]]}

    def locked(self):
        """The outputs to listed scripts that Core doesn't list: spent ones; and those that Core has locked."""
        spent_here = set()
        for _, (text, height) in self.transactions.items():
            spent_here.update(inputs_and_outputs(bytes.fromhex(text))[0])
        coins = set()
        for txid, (text, height) in self.transactions.items():
            for index, script in enumerate(inputs_and_outputs(bytes.fromhex(text))[1]):
                coin = (txid, index)
                if script in self.weights and coin not in self.unspent and coin not in spent_here:
                    coins.add(coin)
        for entry in self.node.ask("listlockunspent"):
            coins.add((entry["txid"], entry["vout"]))
        return sorted(coins)

    def wallet_file(self, change):
        earlier = [(height, txid) for txid, (_, height) in self.transactions.items() if height is not None and height <= self.height]
        pending = {txid: text for txid, (text, height) in self.transactions.items() if height is None}
        return {
            "height": self.height,
            "hash": self.hashes[0],
            "scripts": [{"script": script, "weight": weight} for script, weight in self.weights.items()],
            "change": change,
            "earlier": [{"tx": self.transactions[txid][0], "height": height} for height, txid in sorted(earlier)],
            "pending": [pending[txid] for txid in parents_first(pending)],
            "locked": [f"{txid}:{index}" for txid, index in self.locked()],
        }

    def keys_file(self):
        """What a signer has to know of the listed scripts, as far as the node tells it."""
        scripts, xpubs = [], {}
        for script, told in self.told.items():
            try:
                scripts.append(descriptors.entry_of(script, told["desc"], told))
            except descriptors.Lacking as lacking:
                self.say(f"no keys of {script}: {lacking} (`{told['desc']}`)")
            for descriptor in [told.get("parent_desc", ""), *told.get("parent_descs", [])]:
                for one in descriptors.xpubs_of(descriptor):
                    xpubs.setdefault(one["xpub"], one)
        return {"scripts": scripts, "xpubs": list(xpubs.values())}

    def blocks(self):
        """The records of the last blocks, one by one."""
        for block in self.hashes[1:]:
            data = bytes.fromhex(self.node.ask("getblock", block, "0"))
            yield record(data)


def put_json(path, value):
    with open(path, "w", encoding="utf-8") as file:
        json.dump(value, file, indent=1)
        file.write("\n")


def make(options, say):
    """Writes the files, and says what they hold."""
    command = shlex.split(options.cli) + ([f"-rpcwallet={options.wallet}"] if options.wallet else [])
    wallet = Wallet(Node(command, options.saved, options.save), options.last_blocks, say)
    wallet.add_coins()
    wallet.add_pending()
    made = wallet.wallet_file(wallet.change(options.change))
    for path in (options.out, options.block_file, options.keys):
        if path is not None and os.path.exists(path) and not options.overwrite:
            raise Refused(f"{path} is there already (--overwrite replaces it)")
    put_json(options.out, made)
    with open(options.block_file, "wb") as file:
        for record in wallet.blocks():
            file.write(record)
    say(f"{options.out}: {len(wallet.unspent)} coins of {len(made['scripts'])} scripts, {len(made['earlier'])} earlier "
        f"and {len(made['pending'])} pending transactions, {len(made['locked'])} locked outputs, height {made['height']}")
    say(f"{options.block_file}: {options.last_blocks} blocks")
    if options.keys is not None:
        keys = wallet.keys_file()
        put_json(options.keys, keys)
        say(f"{options.keys}: keys of {len(keys['scripts'])} scripts, {len(keys['xpubs'])} extended keys")


def main():
    parser = argparse.ArgumentParser(description=__doc__, formatter_class=argparse.RawDescriptionHelpFormatter)
    parser.add_argument("--cli", default="bitcoin-cli", help="the command that asks the node, with its options")
    parser.add_argument("--wallet", help="the wallet's name at the node")
    parser.add_argument("--saved", metavar="FOLDER", help="read the node's answers from this folder")
    parser.add_argument("--save", metavar="FOLDER", help="keep the node's answers in this folder")
    parser.add_argument("--change", metavar="ADDRESS", required=True, help="an address of the wallet, for change")
    parser.add_argument("--last-blocks", metavar="N", type=int, default=0, help="put the last N blocks into the block file")
    parser.add_argument("--out", metavar="FILE", required=True, help="the wallet file to write")
    parser.add_argument("--block-file", metavar="FILE", required=True, help="the block file to write")
    parser.add_argument("--keys", metavar="FILE", help="also write the keys file, for a hardware signer")
    parser.add_argument("--overwrite", action="store_true", help="replace files that are there")
    options = parser.parse_args()
    try:
        if options.save is not None:
            os.makedirs(options.save, exist_ok=True)
        make(options, lambda line: print(line, file=sys.stderr))
    except Refused as refused:
        print(f"core_to_files: {refused}", file=sys.stderr)
        return 1
    except OSError as error:
        print(f"core_to_files: {error.filename}: {error.strerror}", file=sys.stderr)
        return 1
    return 0


if __name__ == "__main__":
    sys.exit(main())
