"""The first fault of a wallet, a block file, a request or an address, by docs/FORMATS.md alone. For tests/mutate.py."""

import json
import math
import re

from lib.bitcoin import MAGIC, double_sha256
from pages.answers import dust
from pages.psbt_faults import MAX_MONEY, Bytes, Fault, read_tx, transaction

NO = object()
MOST_RATE = 100_000_000
COIN = re.compile("[0-9a-fA-F]{64}:(0|[1-9][0-9]{0,9})")
LETTERS = "qpzry9x8gf2tvdw0s3jn54khce6mua7l"
METHODS = ("auto", "changeless", "weight", "draw", "manual")


# ---- JSON


def whole(text):
    """A whole number without a sign that 64 bits hold; NO for any other that a float holds."""
    if math.isinf(float(text)):
        raise ValueError
    return NO if text.startswith("-") or int(text) >= 2**64 else int(text)


def not_whole(text):
    if math.isinf(float(text)):
        raise ValueError
    return NO


def refuse(_):
    raise ValueError


def depth_of(value):
    if isinstance(value, (dict, list)):
        return 1 + max(map(depth_of, value.values() if isinstance(value, dict) else value), default=0)
    return 0


def read_json(data):
    try:
        value = json.loads(data.decode(), parse_int=whole, parse_float=not_whole, parse_constant=refuse)
        json.dumps(value, ensure_ascii=False, default=str).encode()
        if depth_of(value) > 127:
            raise ValueError
    except (ValueError, RecursionError, OverflowError) as wrong:
        raise Fault("NotJson") from wrong
    return value


def shown(name):
    return "".join(chr(byte) if 33 <= byte <= 126 and byte != 92 else f"\\x{byte:02x}" for byte in name.encode())


def members(value, name, known, required):
    """That a value is an object with members of these names alone, and with the required ones."""
    if not isinstance(value, dict):
        raise Fault(f"Kind {name}")
    unknown = sorted((one.encode(), one) for one in value if one not in known)
    if unknown:
        raise Fault(f"Member {shown(unknown[0][1])}")
    for one in required:
        if one not in value:
            raise Fault(f"Missing {one}")


def is_whole(value, most=2**64 - 1):
    return isinstance(value, int) and not isinstance(value, bool) and value <= most


def is_hex(value, size=None):
    is_text = isinstance(value, str) and re.fullmatch("([0-9a-fA-F]{2})*", value) is not None
    return is_text and (size is None or len(value) == size)


def is_coin(value):
    return isinstance(value, str) and COIN.fullmatch(value) is not None and int(value[65:]) < 2**32


def test(is_so, fault):
    if not is_so:
        raise Fault(fault)


def each(value, name, is_one):
    """That a value is a list, each entry of which is so."""
    test(isinstance(value, list) and all(map(is_one, value)), f"Kind {name}")


# ---- the wallet


def watched(entry, name, index, before):
    members(entry, name, ("script", "weight"), ("script", "weight"))
    test(is_hex(entry["script"]), "Kind script")
    test(is_whole(entry["weight"]), "Kind weight")
    script = entry["script"].lower()
    test(2 <= len(script) <= 20_000 and script not in before, f"Script {index}")
    test(165 <= entry["weight"] <= 400_000, f"Weight {index}")
    return script


def tx_of(text, name, index):
    try:
        inputs, _, txid = transaction(bytes.fromhex(text), False)
    except Fault as fault:
        raise Fault(f"Tx {name} {index} {fault}") from fault
    return txid, [point[0] for point, _ in inputs]


def earlier_of(wallet):
    test(isinstance(wallet.get("earlier", []), list), "Kind earlier")
    for index, entry in enumerate(wallet.get("earlier", [])):
        members(entry, "earlier", ("tx", "height"), ("tx", "height"))
        test(is_hex(entry["tx"]), "Kind tx")
        test(is_whole(entry["height"], wallet["height"]), "Kind height")
        yield tx_of(entry["tx"], "earlier", index)


def pending_of(wallet):
    test(isinstance(wallet.get("pending", []), list), "Kind pending")
    for index, entry in enumerate(wallet.get("pending", [])):
        test(is_hex(entry), "Kind pending")
        yield tx_of(entry, "pending", index)


def read_wallet(data):
    wallet, known = read_json(data), ("height", "hash", "scripts", "change", "earlier", "pending", "abandoned", "locked")
    members(wallet, "root", known, known[:4])
    test(is_whole(wallet["height"], 100_000_000), "Kind height")
    test(is_hex(wallet["hash"], 64), "Kind hash")
    test(isinstance(wallet["scripts"], list), "Kind scripts")
    scripts = []
    for index, entry in enumerate(wallet["scripts"]):
        scripts.append(watched(entry, "scripts", index, scripts))
    watched(wallet["change"], "change", len(scripts), ())
    earlier, pending = list(earlier_of(wallet)), list(pending_of(wallet))
    each(wallet.get("abandoned", []), "abandoned", lambda one: is_hex(one, 64))
    each(wallet.get("locked", []), "locked", is_coin)
    for name, txids in (("earlier", [tx[0] for tx in earlier]), ("pending", [tx[0] for tx in pending])):
        for index, txid in enumerate(txids):
            test(txid not in txids[:index], f"Repeat {name} {index}")
    for index, (_, parents) in enumerate(pending):
        test(not {tx[0] for tx in pending[index:]} & set(parents), f"ParentLater {index}")
    return wallet


# ---- the request


def checksum(values):
    sum_of = 1
    for value in values:
        top = sum_of >> 25
        sum_of = (sum_of & 0x1FFFFFF) << 5 ^ value
        for bit, part in enumerate((0x3B6A57B2, 0x26508E6D, 0x1EA119FA, 0x3D4233DD, 0x2A1462B3)):
            sum_of ^= part if top >> bit & 1 else 0
    return sum_of


def read_address(text):
    """The script of an address."""
    test(8 <= len(text.encode()) <= 90, "Length")
    test(not (re.search("[a-z]", text) and re.search("[A-Z]", text)), "Case")
    human, one, rest = text.rpartition("1")
    test(one and human and len(rest) >= 7, "Separator")
    human, rest = (human.lower(), rest.lower()) if text.isascii() else (human, rest)
    test(all(33 <= ord(letter) <= 126 for letter in human) and all(letter in LETTERS for letter in rest), "Letter")
    values = [LETTERS.index(letter) for letter in rest]
    spread = [ord(letter) >> 5 for letter in human] + [0] + [ord(letter) & 31 for letter in human]
    sum_of = checksum(spread + values)
    test(sum_of in (1, 0x2BC830A3), "Checksum")
    test(human == "bc", "Network")
    version, values = values[0], values[1:-6]
    test(version <= 16 and sum_of == (1 if version == 0 else 0x2BC830A3), "Version")
    bits = "".join(f"{value:05b}" for value in values)
    left = len(bits) % 8
    test(left < 5 and "1" not in bits[len(bits) - left :], "Padding")
    program = bytes(int(bits[at : at + 8], 2) for at in range(0, len(bits) - left, 8))
    test(2 <= len(program) <= 40 and (version > 0 or len(program) in (20, 32)), "Length")
    return bytes([version + 80 if version else 0, len(program)]) + program


def recipient(entry, index):
    test(isinstance(entry, dict) and ("address" in entry) != ("script" in entry), "Kind recipients")
    members(entry, "recipients", ("address", "script", "amount"), ("amount",))
    if "address" in entry:
        test(isinstance(entry["address"], str), "Kind address")
    else:
        test(is_hex(entry["script"]), "Kind script")
    test(is_whole(entry["amount"]), "Kind amount")
    if "address" in entry:
        try:
            script = read_address(entry["address"])
        except Fault as fault:
            raise Fault(f"Address {index} {fault}") from fault
    else:
        script = bytes.fromhex(entry["script"])
        test(1 <= len(script) <= 10_000, f"Script {index}")
    test(entry["amount"] <= MAX_MONEY, f"AmountRange {index}")
    test(entry["amount"] >= dust(script), f"Dust {index}")
    return entry["amount"]


def tests_of(request):
    """The members behind the recipients, in their order: name, kind, and what else is asked of them."""
    def is_bool(value):
        return isinstance(value, bool)

    for name in ("rate", "long_term", "discard"):
        yield name, is_whole, lambda value: value <= MOST_RATE, f"RateRange {name}"
    yield "change_target", lambda value: is_whole(value, MAX_MONEY), None, None
    yield "method", lambda value: isinstance(value, str) and value in METHODS, None, None
    yield "seed", lambda value: is_hex(value, 64), None, None
    yield "tries", is_whole, lambda value: 1 <= value <= 10_000_000, "TriesRange"
    yield "when_unfinished", lambda value: isinstance(value, str) and value in ("take", "stop"), None, None
    for name in ("zero_conf", "include_unsafe", "group"):
        yield name, is_bool, None, None
    yield "coins", lambda value: isinstance(value, list) and all(map(is_coin, value)), None, None
    yield "bump", lambda value: is_hex(value, 64), None, None
    yield "replaceable", is_bool, None, None
    yield "locktime", lambda value: is_whole(value, 2**32 - 1), None, None
    yield "psbt", lambda value: is_whole(value) and value in (0, 2), None, None


def read_request(data):
    request = read_json(data)
    known = ["recipients", *(name for name, *_ in tests_of({}))]
    test(isinstance(request, dict), "Kind root")
    if "bump" in request:
        known.remove("coins")
    needs_seed = request.get("method", "auto") in ("auto", "draw")
    members(request, "root", known, ("recipients", "rate", "seed") if needs_seed else ("recipients", "rate"))
    test(isinstance(request["recipients"], list), "Kind recipients")
    amounts = [recipient(entry, index) for index, entry in enumerate(request["recipients"])]
    test(amounts, "NoRecipients")
    test(sum(amounts) <= MAX_MONEY, "SumRange")
    for name, is_kind, is_so, fault in tests_of(request):
        if name in request:
            test(is_kind(request[name]), f"Kind {name}")
            test(is_so is None or is_so(request[name]), fault)
        if name == "coins":
            coins = [coin.lower() for coin in request.get("coins", [])]
            for index, coin in enumerate(coins):
                test(coin not in coins[:index], f"Repeat {index}")
    return request


# ---- the blocks


def tree_of(hashes):
    """The Merkle root, and whether no level has two equal hashes at an even place and the next."""
    sound = True
    while len(hashes) > 1:
        sound = sound and all(one != other for one, other in zip(hashes[::2], hashes[1::2]))
        hashes = hashes + hashes[-1:] if len(hashes) % 2 else hashes
        hashes = [double_sha256(hashes[at] + hashes[at + 1]) for at in range(0, len(hashes), 2)]
    return hashes[0], sound


def read_block(body, last, height):
    """The hash of a block that follows this one."""
    test(body[4:36] == last, f"NotLinked {last[::-1].hex()} {body[4:36][::-1].hex()}")
    data = Bytes(body)
    data.at = 80
    txids = []
    try:
        count = data.compact()
        while len(txids) < count:
            txids.append(read_tx(data, False)[2])
    except Fault as fault:
        raise Fault(f"Tx {height} {fault}") from fault
    test(txids, f"Empty {height}")
    test(data.at == len(body), f"Trailing {height}")
    root, sound = tree_of(txids)
    test(root == body[36:68], f"Merkle {height}")
    test(sound, f"Mutated {height}")
    return double_sha256(body[:80])


def read_blocks(data, last, height):
    """The hash and the height of the last block of a file that goes on from these."""
    at = 0
    while any(data[at:]):
        test(data[at : at + 4] == MAGIC, f"Magic {at}")
        size = int.from_bytes(data[at + 4 : at + 8], "little")
        test(len(data) >= at + 8 and 81 <= size <= 4_000_000 and at + 8 + size <= len(data), f"Length {at + 4}")
        last, height, at = read_block(data[at + 8 : at + 8 + size], last, height + 1), height + 1, at + 8 + size
    return last, height


def fault_of(read, *given):
    """The words of the first fault, or None."""
    try:
        read(*given)
    except Fault as fault:
        return str(fault)
    return None
