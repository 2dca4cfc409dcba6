"""Wallets whose keys have paths from master keys (BIP 32): their scripts, their keys files, and payments of them. They want Debian's
python3-electrum."""

import contextlib

from electrum import keystore
from electrum.bip32 import BIP32Node
from electrum.simple_config import SimpleConfig
from electrum.util import create_and_start_event_loop
from electrum.wallet import Multisig_Wallet, Standard_Wallet
from electrum.wallet_db import WalletDB

import signers

# the path of an account of each kind (BIP 44, 45, 48, 49 and 84), and Electrum's word for its extended keys
ACCOUNTS = {
    "p2wpkh": ("m/84h/0h/0h", "p2wpkh"),
    "p2pkh": ("m/44h/0h/0h", "standard"),
    "p2sh-p2wpkh": ("m/49h/0h/0h", "p2wpkh-p2sh"),
    "p2wsh-2-of-3": ("m/48h/0h/0h/2h", "p2wsh"),
    "p2sh-p2wsh-2-of-3": ("m/48h/0h/0h/1h", "p2wsh-p2sh"),
    "p2sh-2-of-3": ("m/45h/0h", "standard"),
}
XPUB = bytes.fromhex("0488b21e")  # the first bytes of an extended public key, whatever its scripts (BIP 32)


class Account:
    """The scripts of a kind, over one master key or three."""

    def __init__(self, name, roots):
        self.name, self.roots = name, roots
        self.path, self.kind = ACCOUNTS[name]
        self.nodes = [BIP32Node.from_xkey(root.to_xprv())._replace(xtype=self.kind).subkey_at_private_derivation(self.path) for root in roots]

    def script(self, branch, index):
        """The script of receiving, branch 0, or of change, branch 1; with its entry in a keys file."""
        nodes = [node.subkey_at_private_derivation([branch, index]) for node in self.nodes]
        kind = signers.Kind(self.name, [node.eckey.get_secret_bytes() for node in nodes])
        entry = {"script": kind.script.hex()}
        entry.update({name: script.hex() for name, script in (("redeem", kind.redeem), ("witness", kind.witness)) if script is not None})
        entry["keys"] = [{"pubkey": node.eckey.get_public_key_hex(compressed=True), "fingerprint": root.calc_fingerprint_of_this_node().hex(),
                          "path": f"{self.path}/{branch}/{index}"} for root, node in zip(self.roots, nodes)]
        kind.entry = entry
        return kind

    def xpubs(self):
        """The extended public keys of a multi-signature's account, as a keys file has them."""
        if len(self.roots) == 1:
            return []
        return [{"xpub": (XPUB + node.convert_to_public().to_xpub_bytes()[4:]).hex(), "fingerprint": root.calc_fingerprint_of_this_node().hex(),
                 "path": self.path} for root, node in zip(self.roots, self.nodes)]


class Case(signers.Case):
    """A wallet of accounts, with a keys file of all its scripts, and a request."""

    def __init__(self, source, methods, accounts):
        self.accounts = accounts
        places = sorted({(source.randrange(len(accounts)), source.randrange(5_000)) for _ in range(source.randint(1, 4))})
        super().__init__(source, methods, [accounts[number].script(0, index) for number, index in places])
        self.change = source.choice(accounts).script(1, source.randrange(5_000))
        self.wallet["change"] = {"script": self.change.script.hex(), "weight": self.change.weight}
        entries = [kind.entry for kind in [*self.kinds, self.change]]
        self.keys = {"scripts": source.sample(entries, len(entries)), "xpubs": [one for account in accounts for one in account.xpubs()]}


def account_of(name, roots):
    """An account over as many of the master keys as its scripts have keys."""
    return Account(name, roots[:signers.signers_of(name)])


# ---- Electrum


def described(account, number):
    """What a wallet file of Electrum has of one of an account's extended keys."""
    root, node = account.roots[number], account.nodes[number]
    return {**keystore.from_xpub(node.to_xpub()).dump(), "derivation": account.path, "root_fingerprint": root.calc_fingerprint_of_this_node().hex()}


def electrum_wallet(stores, folder):
    """A wallet of Electrum over what its file has of its extended keys, that has made one address of receiving and one of change."""
    db, config = WalletDB("", manual_upgrades=False), SimpleConfig({"electrum_path": folder})
    db.put("gap_limit", 1)
    db.put("gap_limit_for_change", 1)
    if len(stores) == 1:
        db.put("keystore", stores[0])
        return Standard_Wallet(db, None, config=config)
    db.put("wallet_type", f"2of{len(stores)}")
    for number, one in enumerate(stores):
        db.put(f"x{number + 1}/", one)
    return Multisig_Wallet(db, None, config=config)


@contextlib.contextmanager
def event_loop():
    """What Electrum's wallets tell their news to."""
    loop, stopping, thread = create_and_start_event_loop()
    try:
        yield
    finally:
        loop.call_soon_threadsafe(stopping.set_result, None)
        thread.join()
