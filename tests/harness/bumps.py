"""Wallets with payments that wait, and requests that replace one of them: by chance, and by changes of such as are there. For
tests/mutate.py, to which nothing of this is due: pages/replacements.py tells what comes of it."""

import json

from harness.cases import SCRIPTS
from lib.bitcoin import compact, double_sha256, input_bytes, merkle_root, output_bytes, read_compact, read_tx, record, serialised, shown_point, stack
from pages.chain import Chain, fee
from pages.replacements import Replaced, vsize

FOREIGN = b"\x00\x14" + b"\x77" * 20
SEQUENCES = (0xFFFFFFFD, 0xFFFFFFFD, 0xFFFFFFFD, 0xFFFFFFFD, 0xFFFFFFFE, 0xFFFFFFFF, 0)
METHODS = ("auto", "auto", "changeless", "weight", "draw", "manual")


# ---- transactions


def built(inputs, outputs, witness=b""):
    """A transaction that spends these outpoints with these sequences; with a witness of each input where one is given."""
    spent, paid = [input_bytes(*point, sequence) for point, sequence in inputs], [output_bytes(*one) for one in outputs]
    return serialised(spent, paid, [stack([witness])] * len(inputs) if witness else None)


def places_of(data):
    """Where the outpoints, the sequences and the values of a transaction begin."""
    count, at = read_compact(data, 6 if data[4] == 0 else 4)
    points, sequences, values = [], [], []
    for _ in range(count):
        points.append(at)
        length, at = read_compact(data, at + 36)
        sequences.append(at + length)
        at += length + 4
    many, at = read_compact(data, at)
    for _ in range(many):
        values.append(at)
        length, at = read_compact(data, at + 8)
        at += length
    return points, sequences, values


def block_of(txs, last):
    """A record of a block file, with these transactions after the block of this hash; and its own hash."""
    header = bytes([0, 0, 0, 32]) + last + merkle_root([read_tx(tx).txid for tx in txs]) + bytes(12)
    return record(header + compact(len(txs)) + b"".join(txs)), double_sha256(header)


# ---- cases by chance


def coinbase(rng, outputs):
    return built([((bytes(32), 0xFFFFFFFF), rng.randrange(2**32))], outputs)


def confirmed(rng, number):
    """So many confirmed transactions and their outputs; few of them coinbases, or spent by one another, or worth millions."""
    txs, free, more = [], [], rng.choice((0,) * 40 + (7 * 10**14, 10**15))
    for _ in range(number):
        outputs = [(rng.choice((20_000, 50_000, 100_000)) + rng.randrange(9_000) + more, rng.choice(SCRIPTS * 8 + [(FOREIGN, 0)])[0])
                   for _ in range(rng.choice((1, 1, 1, 2, 3)))]
        point = free.pop(rng.randrange(len(free))) if free and rng.random() < 0.1 else ((rng.randbytes(32), 0), 0)
        txs.append(coinbase(rng, outputs) if rng.random() < 0.1 else built([(point[0], 0xFFFFFFFF)], outputs))
        free += [((read_tx(txs[-1]).txid, index), value) for index, (value, _) in enumerate(outputs)]
    return txs, free


def pending(rng, free, number):
    """So many transactions over these outputs. One may be spent again, twice at once, or at an index past the last."""
    txs, used = [], []
    for _ in range(number):
        inputs = [rng.choice(used if used and rng.random() < 0.08 else free) for _ in range(rng.choice((1, 1, 1, 2, 2, 3)))]
        inputs = [(point if rng.random() > 0.02 else (point[0], point[1] + 7), value) for point, value in dict(inputs).items()]
        worth = sum(value for _, value in inputs)
        used += inputs
        inputs += [rng.choice(inputs)] * (rng.random() < 0.04) + [((rng.randbytes(32), 1), 0)] * (rng.random() < 0.04)
        paid = max(2, worth - rng.choice((100, 110, 300, 700, 2_000, 9_000, -5_000)))
        script, first = rng.choice(SCRIPTS)[0], rng.randrange(1, paid)
        outputs = [(first, FOREIGN), (paid - first, script)] if rng.random() < 0.6 else [(paid, rng.choice((script, FOREIGN)))]
        sequence, witness = rng.choice(SEQUENCES), rng.choice((b"", rng.randbytes(rng.choice((1, 70, 107)))))
        txs.append(built([(point, sequence) for point, _ in inputs], outputs, witness))
        free = [one for one in free if one not in inputs] or free
        free += [((read_tx(txs[-1]).txid, index), value) for index, (value, _) in enumerate(outputs)]
    return txs


def case(rng):
    """The files of a payment that replaces one."""
    earlier, free = confirmed(rng, rng.randrange(1, 7))
    txs = pending(rng, list(free), rng.choice((1, 1, 2, 3, 4, 6)))
    entries = [{"script": script.hex(), "weight": weight} for script, weight in SCRIPTS]
    wallet = {"height": 200, "hash": "00" * 32, "scripts": entries, "change": rng.choice(entries)}
    wallet["earlier"] = [{"tx": tx.hex(), "height": rng.choice((80, 190, 196, 200))} for tx in earlier]
    wallet["pending"] = [tx.hex() for tx in txs]
    payment = read_tx(rng.choice(txs))
    values = dict(free)
    worth = sum(values.get(point, 50_000) for point in payment.inputs)
    scale = rng.choice((0.5, 0.9, 0.97, 1, 1, 1.5, 2.5))
    request = {"recipients": [{"script": "0014" + "44" * 20, "amount": max(600, int(worth * scale) - rng.randrange(3_000))}],
               "rate": rng.choice((999, 1_000, 1_500, 4_000, 10_000, 25_000, 60_000)), "bump": payment.txid[::-1].hex(),
               "method": rng.choice(METHODS), "seed": rng.randbytes(32).hex(), "group": rng.random() < 0.2,
               "change_target": rng.choice((0, 5_000, 50_000)), "tries": rng.choice((1, 2, 5, 100_000, 100_000, 100_000)),
               "when_unfinished": rng.choice(("take", "stop")), "zero_conf": rng.random() < 0.8,
               "include_unsafe": rng.random() < 0.3}
    blocks, last = b"", bytes(32)
    for _ in range(rng.choice((0, 0, 0, 1, 2))):
        more, _ = confirmed(rng, rng.randrange(3))
        record, last = block_of([coinbase(rng, [(7, FOREIGN)]), *more], last)
        blocks += record
    return {"wallet.json": json.dumps(wallet).encode(), "blocks.dat": blocks, "request.json": json.dumps(request).encode()}


# ---- changes; each takes what is at random, wallet and request


def txs_of(wallet):
    return [bytes.fromhex(text) for text in wallet["pending"]]


def put(wallet, request, place, data):
    """Another transaction at a place of `pending`: its new txid stands wherever the old one stood."""
    names = {}
    for at, text in enumerate(wallet["pending"]):
        new = data.hex() if at == place else text.lower()
        for old, name in names.items():
            new = new.replace(old, name)
        before, after = (read_tx(bytes.fromhex(one)).txid.hex() for one in (text, new))
        wallet["pending"][at] = new
        if before != after:
            names[before] = after
    shown = {bytes.fromhex(old)[::-1].hex(): bytes.fromhex(name)[::-1].hex() for old, name in names.items()}
    for name in ("locked", "abandoned"):
        if name in wallet:
            wallet[name] = [shown.get(one[:64].lower(), one[:64]) + one[64:] for one in wallet[name]]
    request["bump"] = shown.get(request["bump"].lower(), request["bump"])


def other_payment(rng, wallet, request):
    """The txid of another transaction, or in its other order."""
    txs = txs_of(wallet) + [bytes.fromhex(one["tx"]) for one in wallet.get("earlier", [])[:1]]
    request["bump"] = read_tx(rng.choice(txs)).txid[:: rng.choice((1, -1, -1, -1, -1))].hex()


def near_rate(rng, wallet, request):
    """A rate near that of the payment, or near the least one."""
    chain = Chain(wallet, b"")
    replaced = Replaced(chain, chain.places[bytes.fromhex(request["bump"])[::-1]])
    rate = 1_000 * replaced.fee_of(replaced.payment) // vsize(replaced.payment.weight) if replaced.foreign() is None else 1_000
    request["rate"] = max(0, rng.choice((rate, rate, 1_000)) + rng.choice((-1, 0, 1, 1, 2, 1_000)))


def near_amount(rng, wallet, request):
    """An amount for which the coins of the payment just pay, or just don't."""
    chain = Chain(wallet, b"")
    payment = chain.pending[chain.places[bytes.fromhex(request["bump"])[::-1]]]
    worth = sum(chain.coins[point]["value"] for point in set(payment.inputs))
    spent = fee(request["rate"], 110 + 68 * (len(payment.inputs) - 1)) + rng.choice((0, 0, 341, 1_000))
    request["recipients"][0]["amount"] = max(600, worth - spent + rng.randrange(-600, 600))


def other_bytes(rng, wallet, request):
    """Another sequence, value, outpoint or witness in a payment."""
    place = rng.randrange(len(wallet["pending"]))
    data = bytes.fromhex(wallet["pending"][place])
    points, sequences, values = places_of(data)
    kind = rng.randrange(4)
    if kind == 0:
        at, new = rng.choice(sequences), rng.choice(SEQUENCES).to_bytes(4, "little")
    elif kind == 1:
        at = rng.choice(values)
        value = int.from_bytes(data[at : at + 8], "little") + rng.choice((-1_000, -100, -1, 1, 100, 1_000, 10**6))
        new = max(0, value).to_bytes(8, "little")
    else:
        known = list(Chain(wallet, b"").coins) + [(read_tx(data).txid, 0)]
        txid, index = rng.choice(known)
        at, new = rng.choice(points), txid + (index + rng.choice((0, 0, 0, 1))).to_bytes(4, "little")
    put(wallet, request, place, data[:at] + new + data[at + len(new) :])


def one_more(rng, wallet, _):
    """A payment more, which may spend what others spend."""
    coins = list(Chain(wallet, b"").coins.values())
    spent = [point for tx in txs_of(wallet) for point in read_tx(tx).inputs]
    inputs = [rng.choice([coin["point"] for coin in coins] + spent) for _ in range(rng.choice((1, 1, 2)))]
    worth = sum(coin["value"] for coin in coins if coin["point"] in inputs)
    outputs = [(max(1, worth - rng.choice((100, 500, 5_000))), rng.choice((FOREIGN, *[script for script, _ in SCRIPTS])))]
    wallet["pending"].append(built([(point, rng.choice(SEQUENCES)) for point in inputs], outputs).hex())


def confirm(rng, wallet, _):
    """A payment, or one that spends a coin of it, is confirmed."""
    data = rng.choice(txs_of(wallet))
    if rng.random() < 0.5:
        data = built([(rng.choice(read_tx(data).inputs), 0xFFFFFFFF)], [(rng.randrange(1, 90_000), rng.choice(SCRIPTS)[0])])
    wallet.setdefault("earlier", []).append({"tx": data.hex(), "height": wallet["height"]})


def give_up(rng, wallet, _):
    """A payment is abandoned, or a coin locked."""
    if rng.random() < 0.5:
        wallet.setdefault("abandoned", []).append(read_tx(rng.choice(txs_of(wallet))).txid[::-1].hex())
    else:
        wallet.setdefault("locked", []).append(shown_point(rng.choice(list(Chain(wallet, b"").coins))))


def other_scripts(rng, wallet, _):
    """A script is listed no more, or one that wasn't is."""
    script = rng.choice([FOREIGN, *[script for tx in txs_of(wallet) for _, script in read_tx(tx).outputs]]).hex()
    listed = [entry["script"].lower() for entry in wallet["scripts"]]
    if script not in listed:
        wallet["scripts"].append({"script": script, "weight": 272})
    elif rng.random() < 0.5:
        del wallet["scripts"][rng.choice((listed.index(script), rng.randrange(len(listed))))]


CHANGES = (other_payment, near_rate, near_rate, near_amount, near_amount, other_bytes, other_bytes, other_bytes, one_more,
           confirm, give_up, other_scripts)


def changed(rng, files):
    """The files with one such change; as they are where it can't be made."""
    try:
        wallet, request = json.loads(files["wallet.json"]), json.loads(files["request.json"])
        rng.choice(CHANGES)(rng, wallet, request)
    except (ValueError, KeyError, IndexError, TypeError, AttributeError, AssertionError, OverflowError):
        return files
    return {**files, "wallet.json": json.dumps(wallet).encode(), "request.json": json.dumps(request).encode()}
