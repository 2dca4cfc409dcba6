"""What stands in for hardware signers behind Electrum's code for Trezor, KeepKey and Ledger: no device and none of their libraries.

Electrum makes the messages of a device from a PSBT. A stand-in has a master key. It derives each key by the path in a message, works out
what is signed from the messages alone, and gives its signatures back. It shows every output but those that it derives itself.
"""
import hashlib
import types

from bitcoin.core import CMutableTransaction, COutPoint, CTransaction, CTxIn, CTxOut
from bitcoin.core.script import CScript, SIGVERSION_BASE, SIGVERSION_WITNESS_V0, SignatureHash
from electrum import ecc
from electrum.bip32 import BIP32Node
from electrum.bitcoin import address_to_script, hash_160
from electrum.plugins.keepkey import keepkey
from electrum.plugins.ledger import ledger
from electrum.plugins.trezor import trezor
from electrum.transaction import multisig_script

from harness.path_signer import pay_to_key_hash
from lib.bitcoin import read_tx


class Items(list):
    """A list of messages in a message, as protocol buffers have it."""

    def add(self):
        self.append(Message())
        return self[-1]


class Message(types.SimpleNamespace):
    """A message to a device, whatever its fields are."""

    def __init__(self, **fields):
        super().__init__(**{"address_n": [], "inputs": Items(), "bin_outputs": Items(), "multisig": None, "address": None, **fields})


class Words:
    """The names of a device's library: a message for each type, and for each constant its name."""

    def __getattr__(self, name):
        return Message if name.endswith("Type") else name


def inner(kind, keys, needed):
    """What stands for a script of this kind to be signed, the script that pays to it, and whether it is signed by BIP 143."""
    code = bytes.fromhex(multisig_script([key.hex() for key in keys], needed)) if needed else pay_to_key_hash(hash_160(keys[0]))
    program = b"\x00\x20" + hashlib.sha256(code).digest() if needed else b"\x00\x14" + hash_160(keys[0])
    hashed = b"\xa9\x14" + hash_160(code if "MULTISIG" in kind else program) + b"\x87"
    if "P2SHWITNESS" in kind:
        return code, hashed, True
    if "WITNESS" in kind:
        return code, program, True
    return code, hashed if "MULTISIG" in kind else code, False


class Device:
    """A device with this master key, and what it was asked for."""

    def __init__(self, root):
        self.root = root
        self.earlier, self.paths, self.own, self.shown = {}, [], [], []

    def secret(self, path):
        self.paths.append(tuple(path))
        return self.root.subkey_at_private_derivation(path).eckey

    def script_of(self, message):
        """As `inner`, of an input or output with a path; and its secret key."""
        secret = self.secret(message.address_n)
        own = secret.get_public_key_bytes(compressed=True)
        if message.multisig is None:
            return *inner(message.script_type, [own], 0), secret
        keys = [self.public(one.node).subkey_at_public_derivation(one.address_n).eckey.get_public_key_bytes(compressed=True)
                for one in message.multisig.pubkeys]
        assert own in keys, "the path isn't that of a key of the multi-signature"
        return *inner(message.script_type, keys, message.multisig.m), secret

    @staticmethod
    def public(node):
        return BIP32Node("standard", ecc.ECPubkey(node.public_key), node.chain_code, node.depth)

    def output(self, number, message):
        """The value and script of an output; the device knows those with a path as its own, and shows the others."""
        if message.address_n:
            self.own.append(number)
            return CTxOut(message.amount, CScript(self.script_of(message)[1]))
        self.shown.append(number)
        return CTxOut(message.amount, CScript(bytes.fromhex(address_to_script(message.address))))

    def sign_tx(self, coin, inputs, outputs, lock_time=0, version=1, **_):
        """A signature of each input, as Trezor's and KeepKey's libraries give them."""
        spent = [CTxIn(COutPoint(one.prev_hash[::-1], one.prev_index), nSequence=one.sequence) for one in inputs]
        paid = [self.output(number, one) for number, one in enumerate(outputs)]
        self.tx = CMutableTransaction(spent, paid, lock_time, version)
        signatures = []
        for number, one in enumerate(inputs):
            code, script, segregated, secret = self.script_of(one)
            assert self.earlier_output(one) == (one.amount, script), "the earlier transaction pays something else"
            signatures.append(self.signature(number, code, one.amount if segregated else None, secret))
        return signatures, None

    def earlier_output(self, message):
        output = self.earlier[message.prev_hash].bin_outputs[message.prev_index]
        return output.amount, output.script_pubkey

    def signature(self, number, code, amount, secret):
        """A signature, in DER; with an amount by BIP 143."""
        version = SIGVERSION_BASE if amount is None else SIGVERSION_WITNESS_V0
        digest = SignatureHash(CScript(code), self.tx, number, 1, amount=amount, sigversion=version)
        return secret.sign(digest, ecc.der_sig_from_r_and_s)


# ---- Trezor and KeepKey


class Trezor(trezor.TrezorPlugin):
    """Electrum's code for Trezor, with a device."""

    def __init__(self, device):
        self.device, self.config = device, types.SimpleNamespace(decimal_point=8)

    def get_client(self, keystore, *_, **__):
        def sign_tx(coin, inputs, outputs, prev_txes, **details):
            self.device.earlier = prev_txes
            return self.device.sign_tx(coin, inputs, outputs, **details)

        return types.SimpleNamespace(sign_tx=sign_tx)


class KeepKey(keepkey.KeepKeyPlugin):
    """Electrum's code for KeepKey, with a device."""

    types = Words()

    def __init__(self, device):
        self.device = device

    def get_client(self, keystore, *_, **__):
        self.device.earlier = {bytes.fromhex(txid): self.get_tx(txid) for txid in self.prev_tx}
        return self.device


# ---- Ledger


class EarlierTransaction:
    """A transaction as Ledger's library shows it."""

    def __init__(self, data):
        self.data, self.outputs = data, [types.SimpleNamespace(script=script) for _, script in read_tx(data).outputs]


class Dongle:
    """A Ledger device, as its library for older firmware shows it."""

    def __init__(self, device):
        self.device = device

    def getTrustedInput(self, earlier, index):
        tx = read_tx(earlier.data)
        return {"point": (tx.txid, index), "value": tx.outputs[index][0]}

    def startUntrustedTransaction(self, new, number, inputs, code, version=1):
        self.now, self.code = inputs[number], code

    def finalizeInput(self, _, __, ___, change, payment):
        device = self.device
        device.tx, device.own, device.shown = CTransaction.deserialize(payment), [], []
        own = self.own_scripts(device.secret(self.steps(change))) if change else []
        for number, output in enumerate(device.tx.vout):
            (device.own if bytes(output.scriptPubKey) in own else device.shown).append(number)
        return {"confirmationNeeded": False}

    def own_scripts(self, secret):
        """The scripts of a single key, of each kind."""
        key = secret.get_public_key_bytes(compressed=True)
        return [inner(kind, [key], 0)[1] for kind in ("WITNESS", "P2SHWITNESS", "ADDRESS")]

    @staticmethod
    def steps(path):
        return [int(step.rstrip("'h")) + (1 << 31) * (step[-1] in "'h") for step in path.split("/")]

    def untrustedHashSign(self, path, pin, lockTime=0):
        amount = self.now["value"] if self.now.get("witness") else None
        points = [(one.prevout.hash, one.prevout.n) for one in self.device.tx.vin]
        secret = self.device.secret(self.steps(path))
        return bytearray(self.device.signature(points.index(self.now["point"]), self.code, amount, secret) + b"\x01")


class Ledger(ledger.Ledger_Client_Legacy):
    """Electrum's code for Ledger, with a device."""

    def __init__(self, device):
        self.dongleObject, self.signing = Dongle(device), False
        self.handler = types.SimpleNamespace(show_message=lambda *_: None, finished=lambda: None, show_error=lambda *_: None)

    def is_hw1(self):
        return False

    supports_multi_output = supports_segwit = supports_native_segwit = supports_segwit_trustedInputs = lambda self: True


# ---- stores

WORDS = Words()
for name in ("InputScriptType", "OutputScriptType"):
    setattr(trezor, name, WORDS)
for name in ("TxInputType", "TxOutputType", "TxOutputBinType", "TransactionType", "MultisigRedeemScriptType", "HDNodeType", "HDNodePathType"):
    setattr(trezor, name, Message)
ledger.bitcoinTransaction = EarlierTransaction
for name in ("BTChipException", "SecurityStatusNotSatisfiedError"):
    setattr(ledger, name, type(name, (Exception,), {}))


def with_plugin(store, plugin):
    store.plugin = plugin
    return store


def with_client(store, client):
    store.get_client = lambda *_, **__: client
    return store


# Electrum's word for a device, and its store of keys with a stand-in behind it
STORES = {
    "trezor": lambda description, device: with_plugin(trezor.TrezorKeyStore(description), Trezor(device)),
    "keepkey": lambda description, device: with_plugin(keepkey.KeepKey_KeyStore(description), KeepKey(device)),
    "ledger": lambda description, device: with_client(ledger.Ledger_KeyStore(description), Ledger(device)),
}
