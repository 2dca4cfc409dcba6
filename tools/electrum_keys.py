#!/usr/bin/env python3
"""Makes Ninelace's keys file from the answers of an Electrum wallet.

    tools/electrum_keys.py --cli "electrum --offline -w WALLET" --wallet-file wallet.json --out keys.json
    tools/electrum_keys.py --saved FOLDER --wallet-file wallet.json --out keys.json

The first form asks Electrum's command line; `--save FOLDER` keeps its answers. The second form reads answers that were kept so. Both use
these commands, all of which only read: get, listaddresses, getpubkeys. Electrum tells the path of a wallet's account, and its addresses in
their order: an address's place in that order is the last step of its path. What it tells of secret keys isn't looked at.

The entries are those of the scripts of the wallet file, its change script among them. A script of which Electrum has no address is named.
"""
import argparse
import hashlib
import json
import os
import re
import shlex
import sys

import descriptors
from core_to_files import Node, Refused, put_json

XPUB = "0488b21e"  # the first bytes of an extended public key, whatever its scripts (BIP 32)
LETTERS = "qpzry9x8gf2tvdw0s3jn54khce6mua7l"  # of BIP 173


# ---- scripts


def script_of(address):
    """The script of an address of the main network, as Electrum writes it."""
    if address.startswith("bc1"):
        version, *groups = [LETTERS.index(letter) for letter in address[3:-6]]
        bits = "".join(f"{group:05b}" for group in groups)
        program = bytes(int(bits[at:at + 8], 2) for at in range(0, len(bits) - 7, 8))
        return bytes([version and 0x50 + version, len(program)]) + program
    data = descriptors.base58_bytes(address, 25)
    if data is None or data[0] not in (0, 5):
        raise Refused(f"{address} is no address of the main network")
    return b"\xa9\x14" + data[1:] + b"\x87" if data[0] == 5 else b"\x76\xa9\x14" + data[1:] + b"\x88\xac"


def key_hash(data):
    """The first hash of BIP 16 and BIP 141: RIPEMD-160 of SHA-256."""
    try:
        return hashlib.new("ripemd160", hashlib.sha256(data).digest()).digest()
    except ValueError as missing:
        raise Refused("this Python has no RIPEMD-160, which a script hash needs") from missing


def multi_script(keys, needed):
    """The script of a multi-signature, with its keys in rising order (BIP 67)."""
    return bytes([0x50 + needed]) + b"".join(bytes([len(key)]) + key for key in sorted(keys)) + bytes([0x50 + len(keys), 0xAE])


def scripts_of(script, keys, needed):
    """The redeem script and the witness script behind a script, each None where there is none."""
    inner = multi_script(keys, needed) if len(keys) > 1 else None
    program = b"\x00\x20" + hashlib.sha256(inner).digest() if inner else b"\x00\x14" + key_hash(keys[0])
    if script in (program, b"\x76\xa9\x14" + key_hash(keys[0]) + b"\x88\xac"):
        return None, inner if script == program else None
    for redeem, witness in ((program, inner), (inner, None)):
        if redeem is not None and script == b"\xa9\x14" + key_hash(redeem) + b"\x87":
            return redeem, witness
    raise Refused(f"the keys that Electrum tells aren't those of the script {script.hex()}")


# ---- the wallet


class Wallet:
    """What Electrum says of a wallet."""

    def __init__(self, node):
        self.node = node
        kind = node.ask("get", "wallet_type") or "standard"
        found = re.fullmatch(r"(\d+)of(\d+)", kind)
        if kind != "standard" and not found:
            raise Refused(f"a wallet of the type `{kind}` isn't known")
        self.needed = int(found.group(1)) if found else 1
        names = [f"x{number + 1}/" for number in range(int(found.group(2)))] if found else ["keystore"]
        self.stores = [self.origin(name) for name in names]
        # each script, with the last two steps of its path and its address
        self.places = {}
        for branch, flag in enumerate(("--receiving", "--change")):
            for index, address in enumerate(node.ask("listaddresses", flag)):
                self.places[script_of(address)] = (f"/{branch}/{index}", address)

    def origin(self, name):
        """The fingerprint, the path and the extended key of a store."""
        store = self.node.ask("get", name)
        if not store or not store.get("root_fingerprint") or not store.get("derivation"):
            raise Refused(f"Electrum doesn't know the path of the keys in `{name}`, as where a wallet was made from an extended key alone")
        return store["root_fingerprint"], store["derivation"].replace("'", "h"), store.get("xpub")

    def entry(self, script):
        """The entry of a script of the wallet."""
        steps, address = self.places[script]
        keys = self.node.ask("getpubkeys", address)
        if len(keys) != len(self.stores):
            raise Refused(f"Electrum tells {len(keys)} keys of {address}, and the wallet has {len(self.stores)}")
        redeem, witness = scripts_of(script, [bytes.fromhex(key) for key in keys], self.needed)
        entry = {"script": script.hex()}
        entry.update({name: part.hex() for name, part in (("redeem", redeem), ("witness", witness)) if part is not None})
        entry["keys"] = [{"pubkey": key, "fingerprint": fingerprint, "path": path + steps} for key, (fingerprint, path, _) in zip(keys, self.stores)]
        return entry

    def xpubs(self):
        """The extended keys of a multi-signature."""
        found = []
        for fingerprint, path, text in self.stores if len(self.stores) > 1 else []:
            data = descriptors.base58_bytes(text)
            if data is not None and data[4] == path.count("/"):
                found.append({"xpub": XPUB + data[4:].hex(), "fingerprint": fingerprint, "path": path})
        return found


def make(options, say):
    """Writes the keys file, and says what it holds."""
    with open(options.wallet_file, encoding="utf-8") as file:
        told = json.load(file)
    wallet = Wallet(Node(shlex.split(options.cli), options.saved, options.save))
    entries = {}
    for text in [*(entry["script"] for entry in told["scripts"]), told["change"]["script"]]:
        script = bytes.fromhex(text)
        if script in wallet.places:
            entries.setdefault(script, wallet.entry(script))
        else:
            say(f"no keys of {text}: Electrum lists no address of it")
    if os.path.exists(options.out) and not options.overwrite:
        raise Refused(f"{options.out} is there already (--overwrite replaces it)")
    keys = {"scripts": list(entries.values()), "xpubs": wallet.xpubs()}
    put_json(options.out, keys)
    say(f"{options.out}: keys of {len(keys['scripts'])} scripts, {len(keys['xpubs'])} extended keys")


def main():
    parser = argparse.ArgumentParser(description=__doc__, formatter_class=argparse.RawDescriptionHelpFormatter)
    parser.add_argument("--cli", default="electrum", help="the command of Electrum, with its options")
    parser.add_argument("--saved", metavar="FOLDER", help="read Electrum's answers from this folder")
    parser.add_argument("--save", metavar="FOLDER", help="keep Electrum's answers in this folder")
    parser.add_argument("--wallet-file", metavar="FILE", required=True, help="Ninelace's wallet file, whose scripts are looked up")
    parser.add_argument("--out", metavar="FILE", required=True, help="the keys file to write")
    parser.add_argument("--overwrite", action="store_true", help="replace a file that is there")
    options = parser.parse_args()
    try:
        if options.save is not None:
            os.makedirs(options.save, exist_ok=True)
        make(options, lambda line: print(line, file=sys.stderr))
    except (Refused, OSError) as refused:
        print(f"electrum_keys: {refused}", file=sys.stderr)
        return 1
    return 0


if __name__ == "__main__":
    sys.exit(main())
