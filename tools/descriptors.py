"""What output descriptors of Bitcoin Core tell of a script: the weight of an input that spends it, and its keys with their paths.

A descriptor is read as BIP 380 to 386 define it. What isn't one of the forms below is left to the caller as None: the weight of a
taproot output with scripts beside its key hangs on which of them spends it.
"""
import hashlib
import os
import re
import sys
import typing

sys.path.insert(0, os.path.join(os.path.dirname(os.path.dirname(os.path.abspath(__file__))), "tests"))
from lib.bitcoin import compact

SIGNATURE = 1 + 72  # its length and, with the sighash byte, 72 bytes at most
MULTI = ("multi", "sortedmulti")
LETTERS = "123456789ABCDEFGHJKLMNPQRSTUVWXYZabcdefghijkmnopqrstuvwxyz"
ORIGIN = r"(?:\[([0-9a-fA-F]{8})((?:/\d+[h']?)*)\])?"
EXTENDED = r"xpub[1-9A-HJ-NP-Za-km-z]+"

# which lengths of keys each form may have
SIZES = {
    ("pkh",): (33, 65),
    ("wpkh",): (33,),
    ("sh", "wpkh"): (33,),
    ("tr",): (32, 33),
    ("rawtr",): (32, 33),
    ("sh", "multi"): (33, 65),
    ("wsh", "multi"): (33,),
    ("sh", "wsh", "multi"): (33,),
}


class Key(typing.NamedTuple):
    """A key of a descriptor: its hex or None, its bytes in a script, and its master key's fingerprint and path or None."""

    hex: str
    size: int
    fingerprint: str
    path: str


class Form(typing.NamedTuple):
    """A descriptor that is known: its functions from the outside, how many signatures it needs, and its keys."""

    names: tuple
    needed: int
    keys: list


# ---- reading


def key_of(text):
    """The key of a key expression, or None where it is of no known form."""
    found = re.fullmatch(ORIGIN + "(.*)", text)
    fingerprint, steps, key = found.groups()
    path = "m" + steps if fingerprint else None
    if re.fullmatch(r"0[23][0-9a-fA-F]{64}", key):
        return Key(key.lower(), 33, fingerprint, path)
    if re.fullmatch(r"04[0-9a-fA-F]{128}", key):
        return Key(key.lower(), 65, fingerprint, path)
    if re.fullmatch(r"[0-9a-fA-F]{64}", key):
        return Key(key.lower(), 32, fingerprint, path)
    if re.fullmatch(EXTENDED + r"(/\d+[h']?)*", key):
        return Key(None, 33, None, None)  # BIP 32 derives compressed keys alone
    return None


def form_of(descriptor):
    """The form of a descriptor, or None where it isn't known."""
    body, names = descriptor.split("#")[0], ()
    while found := re.fullmatch(r"(\w+)\((.*)\)", body):
        names, body = (*names, found.group(1)), found.group(2)
    parts, needed = body.split(","), 1
    if names and names[-1] in MULTI and parts[0].isdecimal():
        needed, parts, names = int(parts[0]), parts[1:], (*names[:-1], "multi")
    elif len(parts) != 1:
        return None
    keys = [key_of(part) for part in parts]
    if None in keys or names not in SIZES or any(key.size not in SIZES[names] for key in keys):
        return None
    return Form(names, needed, keys)


# ---- weights


def push(n):
    """The bytes that push n bytes in a script."""
    return n + (1 if n < 76 else 2 if n < 256 else 3)


def number(n):
    """The bytes of a small number in a script."""
    return 1 if n <= 16 else 2


def script_weight(script, witness):
    """The weight of an input with a script of so many bytes, and a witness of so many beside its count."""
    return 4 * (40 + len(compact(script)) + script) + 1 + witness


def weight_of(descriptor):
    """The greatest weight of an input that spends a script of this descriptor, or None where it isn't known.

    A key has the length that the descriptor shows, and each signature 72 bytes at most, its sighash byte among them. A
    taproot coin without scripts is spent by its key with the default sighash.
    """
    form = form_of(descriptor)
    if form is None:
        return None
    key_hash = SIGNATURE + 1 + form.keys[0].size
    script = number(form.needed) + sum(1 + key.size for key in form.keys) + number(len(form.keys)) + 1
    signatures = 1 + SIGNATURE * form.needed
    witness = signatures + len(compact(script)) + script
    return {
        ("pkh",): script_weight(key_hash, 0),
        ("wpkh",): script_weight(0, key_hash),
        ("sh", "wpkh"): script_weight(23, key_hash),
        ("tr",): script_weight(0, 1 + 64),
        ("rawtr",): script_weight(0, 1 + 64),
        ("sh", "multi"): script_weight(signatures + push(script), 0),
        ("wsh", "multi"): script_weight(0, witness),
        ("sh", "wsh", "multi"): script_weight(35, witness),
    }[form.names]


# ---- keys


class Lacking(Exception):
    """Why a script has no entry, in words."""


def scripts_told(names, told):
    """The redeem script and the witness script, as listunspent or getaddressinfo tells them of a script of this form."""
    redeem = told.get("redeemScript", told.get("hex")) if names[0] == "sh" else None
    witness = None
    if names[0] == "wsh":
        witness = told.get("witnessScript", told.get("hex"))
    elif names[:2] == ("sh", "wsh"):
        witness = told.get("witnessScript", told.get("embedded", {}).get("hex"))
    if names[0] == "sh" and redeem is None:
        raise Lacking("the node tells no redeem script")
    if "wsh" in names and witness is None:
        raise Lacking("the node tells no witness script")
    return redeem, witness


def paths_of(form):
    """The keys that a signer finds by their paths, each once."""
    internal = form.names == ("tr",)
    known = {key.hex[-64:] if internal else key.hex: key for key in form.keys if key.path is not None and key.size != 65}
    return [{"pubkey": text, "fingerprint": key.fingerprint.lower(), "path": key.path} for text, key in known.items()]


def entry_of(script, descriptor, told):
    """The entry of a keys file for a script, from its descriptor and what the node tells beside it."""
    form = form_of(descriptor)
    if form is None or form.names == ("rawtr",):
        raise Lacking("its descriptor tells no key that signs for it")
    redeem, witness = scripts_told(form.names, told)
    entry = {"script": script}
    if redeem is not None:
        entry["redeem"] = redeem
    if witness is not None:
        if "0020" + hashlib.sha256(bytes.fromhex(witness)).hexdigest() != (redeem or script):
            raise Lacking("the node tells the witness script of another script")
        entry["witness"] = witness
    if form.names == ("tr",) and form.keys[0].hex is not None:
        entry["internal"] = form.keys[0].hex[-64:]
    entry["keys"] = paths_of(form)
    if not entry["keys"]:
        raise Lacking("no compressed key of its descriptor has a path")
    return entry


def base58_bytes(text, size=82):
    """The bytes of a text in base58 without its checksum, or None where it isn't one of this many bytes."""
    value = 0
    for letter in text:
        value = 58 * value + LETTERS.index(letter)
    data = value.to_bytes(size, "big") if value < 1 << 8 * size else b""
    right = hashlib.sha256(hashlib.sha256(data[:-4]).digest()).digest()[:4] == data[-4:]
    return data[:-4] if data and right else None


def xpubs_of(descriptor):
    """The extended keys of a multi-signature's descriptor that have an origin, as entries of a keys file."""
    if not re.search(r"\b(sorted)?multi\(", descriptor):
        return []
    found = []
    for fingerprint, steps, text in re.findall(ORIGIN + f"({EXTENDED})", descriptor):
        data = base58_bytes(text)
        if fingerprint and data is not None and data[4] == steps.count("/"):
            found.append({"xpub": data.hex(), "fingerprint": fingerprint.lower(), "path": "m" + steps})
    return found
