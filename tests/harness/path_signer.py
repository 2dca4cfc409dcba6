"""A signer that knows nothing of a wallet: it has master keys, and finds what they sign by the fingerprints and paths of a PSBT.

It wants Debian's python3-electrum and python3-bitcoinlib. It signs with ECDSA: taproot inputs it leaves."""

import hashlib

from bitcoin.core import CTransaction
from bitcoin.core.script import CScript, SIGVERSION_BASE, SIGVERSION_WITNESS_V0, SignatureHash
from electrum import ecc
from electrum.bip32 import BIP32Node
from electrum.bitcoin import hash_160, push_script

from lib.bitcoin import compact, input_bytes, read_tx, serialised, stack
from lib.psbt import paid_by, psbt_bytes, read_psbt, spent_by, unsigned_of

ALL = b"\x01"  # the sighash byte: a signature of the whole payment


def pay_to_key_hash(digest):
    return b"\x76\xa9\x14" + digest + b"\x88\xac"


def inner_script(script, redeem, witness):
    """The script that keys sign for, and whether by BIP 143; None where a script beside doesn't belong to the one that is paid."""
    program = script
    if script[:2] == b"\xa9\x14":
        if redeem is None or hash_160(redeem) != script[2:22]:
            return None
        program = redeem
    if program[:2] == b"\x00\x14":
        return pay_to_key_hash(program[2:]), True
    if program[:2] == b"\x00\x20":
        fits = witness is not None and hashlib.sha256(witness).digest() == program[2:]
        return (witness, True) if fits else None
    return None if program[:2] == b"\x51\x20" else (program, False)


def is_of(key, code):
    """Whether a script asks for this public key, or for its hash."""
    return key in code or hash_160(key) in code


class Signer:
    """Master keys, by their fingerprints."""

    def __init__(self, roots):
        self.roots = {root.calc_fingerprint_of_this_node(): root for root in roots}

    def secret(self, key, origin):
        """The secret key of a public key with its origin, where a master key here derives it."""
        root = self.roots.get(origin[:4])
        if root is None:
            return None
        steps = [int.from_bytes(origin[at:at + 4], "little") for at in range(4, len(origin), 4)]
        node = root.subkey_at_private_derivation(steps)
        return node.eckey if node.eckey.get_public_key_bytes(compressed=True) == key else None

    def known(self, pairs, kind, code):
        """The keys of a map, under this type, that belong to a script and are derived here: each with its secret key."""
        keys = {key[1:]: self.secret(key[1:], value) for key, value in pairs if key[0] == kind}
        return {key: secret for key, secret in keys.items() if secret is not None and is_of(key, code)}

    def sign(self, data):
        """The PSBT with a signature of each key that is derived here, and how many inputs got one."""
        psbt = read_psbt(data)
        tx, signed = CTransaction.deserialize(unsigned_of(psbt)), 0
        inputs = []
        for number, (pairs, (value, script)) in enumerate(zip(psbt.inputs, spent_by(psbt))):
            code = inner_script(script, dict(pairs).get(b"\x04"), dict(pairs).get(b"\x05"))
            keys = self.known(pairs, 0x06, code[0]) if code else {}
            if keys:
                digest = SignatureHash(CScript(code[0]), tx, number, 1, amount=value if code[1] else None,
                                       sigversion=SIGVERSION_WITNESS_V0 if code[1] else SIGVERSION_BASE)
                pairs = [*pairs, *((b"\x02" + key, secret.sign(digest, ecc.der_sig_from_r_and_s) + ALL) for key, secret in keys.items())]
                signed += 1
            inputs.append(sorted(pairs))
        return psbt_bytes(psbt._replace(inputs=inputs)), signed

    def own_outputs(self, data):
        """The outputs that pay to a script of keys that are derived here."""
        psbt, own = read_psbt(data), []
        for number, (pairs, (_, script)) in enumerate(zip(psbt.outputs, paid_by(psbt))):
            code = inner_script(script, dict(pairs).get(b"\x00"), dict(pairs).get(b"\x01"))
            if code and self.known(pairs, 0x02, code[0]):
                own.append(number)
        return own


# ---- made final


def final_parts(pairs, script):
    """The script and the witness of a signed input."""
    known = dict(pairs)
    redeem, witness = known.get(b"\x04"), known.get(b"\x05")
    signatures = {key[1:]: value for key, value in pairs if key[0] == 0x02}
    code, segregated = inner_script(script, redeem, witness)
    if code[-1:] == b"\xae":  # a multi-signature: its signatures stand in the order of its keys, behind an empty item
        needed = code[0] - 0x50
        ordered = sorted(signatures, key=code.index)[:needed]
        items = [b"", *(signatures[key] for key in ordered), code]
    else:
        items = [item for key, value in signatures.items() for item in (value, key)]
    if not segregated:
        pushed = b"".join(bytes.fromhex(push_script(item.hex())) if item else b"\x00" for item in items)
        return pushed, None
    return (bytes.fromhex(push_script(redeem.hex())) if redeem else b""), stack(items)


def finished(data):
    """The signed transaction of a PSBT with enough signatures, and the PSBT made final."""
    psbt = read_psbt(data)
    bare = unsigned_of(psbt)
    tx = CTransaction.deserialize(bare)
    maps, inputs, witnesses = [], [], []
    for pairs, txin, (_, script) in zip(psbt.inputs, tx.vin, spent_by(psbt)):
        signature, witness = final_parts(pairs, script)
        # BIP 174: beside what is final only what tells of the coin stays, and in version 2 what is of the payment
        kept = [(key, value) for key, value in pairs if key in (b"\x00", b"\x01") or (psbt.version == 2 and key[0] in (0x0E, 0x0F, 0x10))]
        final = [(b"\x07", signature)] * (signature != b"") + [(b"\x08", witness or b"")] * (witness is not None)
        maps.append(sorted(kept + final))
        inputs.append(input_bytes(txin.prevout.hash, txin.prevout.n, txin.nSequence, signature))
        witnesses.append(witness)
    outputs = [value.to_bytes(8, "little") + compact(len(script)) + script for value, script in read_tx(bare).outputs]
    segregated = None if set(witnesses) == {None} else [witness or b"\x00" for witness in witnesses]
    signed = serialised(inputs, outputs, segregated, tx.nVersion, tx.nLockTime)
    return signed, psbt_bytes(psbt._replace(inputs=maps))


def root_of(source):
    """A master key by chance."""
    return BIP32Node.from_rootseed(source.randbytes(32), xtype="standard")
