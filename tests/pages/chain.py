"""What a wallet and a block file come to by docs/FORMATS.md alone: the states of payments that wait, the coins, those that may be spent,
and their prices."""

from lib.bitcoin import point_of, read_blocks, read_tx

COINBASE = (bytes(32), 0xFFFFFFFF)


def fee(rate, size):
    return -(-rate * size // 1000)


class Chain:
    """What the wallet and the block file come to: the states, the coins, those that were coins before, and the candidates, in the
    order in which they came to be."""

    def __init__(self, wallet, blocks):
        self.confirmed = [(read_tx(bytes.fromhex(one["tx"])), one["height"]) for one in wallet.get("earlier", [])]
        self.tip = wallet["height"]
        for block in read_blocks(blocks):
            self.tip += 1
            self.confirmed += [(tx, self.tip) for tx in block]
        self.heights = {}
        for tx, height in self.confirmed:
            self.heights.setdefault(tx[0], height)
        self.pending = [read_tx(bytes.fromhex(tx)) for tx in wallet.get("pending", [])]
        self.places = {tx[0]: place for place, tx in enumerate(self.pending)}
        self.abandoned = {bytes.fromhex(txid)[::-1] for txid in wallet.get("abandoned", [])}
        self.states()
        self.coins, self.repeated = {}, []
        self.candidates = self.find(wallet)

    def kin(self, place):
        """It and its ancestors."""
        found, waiting = [place], [place]
        while waiting:
            for txid, _ in self.pending[waiting.pop()][1]:
                parent = self.places.get(txid)
                if parent is not None and txid not in self.heights and parent not in found:
                    found.append(parent)
                    waiting.append(parent)
        return sorted(found)

    def given_up(self, place):
        """Confirmed, conflicted or abandoned; or None."""
        kin = self.kin(place)
        points = {point for one in kin for point in self.pending[one].inputs}
        if self.pending[place].txid in self.heights:
            return f"confirmed {self.heights[self.pending[place].txid]}"
        for tx, _ in self.confirmed:
            if not points.isdisjoint(tx.inputs):
                return f"conflicted {tx.txid[::-1].hex()}"
        return "abandoned" if any(self.pending[one].txid in self.abandoned for one in kin) else None

    def replacer(self, place, first):
        for one in self.kin(place):
            for later in range(one + 1, len(self.pending)):
                if first[later] is None and set(self.pending[later][1]) & set(self.pending[one][1]):
                    return later
        return None

    def states(self):
        first = [self.given_up(place) for place in range(len(self.pending))]
        by = {place: self.replacer(place, first) for place, state in enumerate(first) if state is None}
        self.state = [state or "pending" for state in first]
        for place, later in by.items():
            if later is not None:
                self.state[place] = f"replaced {self.pending[later].txid[::-1].hex()}"
        self.replacers = set(by.values())

    def is_safe(self, place, own):
        parents = [self.places[txid] for txid, _ in self.pending[place][1] if txid in self.places]
        waiting = [one for one in parents if self.state[one] == "pending"]
        return own(place) and place not in self.replacers and all(self.is_safe(one, own) for one in waiting)

    def find(self, wallet):
        weights = {bytes.fromhex(one["script"]): one["weight"] for one in wallet["scripts"]}
        made = [(tx, self.tip - height + 1, None) for tx, height in self.confirmed]
        made += [(tx, 0, place) for place, tx in enumerate(self.pending) if tx[0] not in self.heights]
        coins = []
        for tx, depth, place in made:
            for index, (value, script) in enumerate(tx.outputs):
                if script in weights:
                    coins.append({"point": (tx[0], index), "value": value, "script": script, "weight": weights[script],
                                  "depth": depth, "place": place, "inputs": tx.inputs, "whole": tx.whole})
        for coin in coins:
            if self.coins.setdefault(coin["point"], coin) is not coin:
                self.repeated.append(coin["point"])
        alive = [place for place, state in enumerate(self.state) if state == "pending"]
        spent = {point for tx, _ in self.confirmed for point in tx[1]}
        spent |= {point for place in alive for point in self.pending[place][1]} | {point_of(one) for one in wallet.get("locked", [])}

        def own(place):
            return all(point in self.coins for point in self.pending[place].inputs)

        found = []
        for coin in coins:
            place = coin["place"]
            is_young = coin["inputs"] == [COINBASE] and coin["depth"] < 101
            if coin["point"] in spent or is_young or (place is not None and place not in alive):
                continue
            coin["mine"] = all(point in self.coins for point in coin["inputs"])
            coin["safe"] = place is None or self.is_safe(place, own)
            coin["ancestors"] = 0 if place is None else len([one for one in self.kin(place) if one in alive])
            coin["descendants"] = 0 if place is None else len([one for one in alive if place in self.kin(one)])
            found.append(coin)
        return found

    def paid(self, place):
        """What a pending transaction pays, or None where it isn't known."""
        tx = self.pending[place]
        outputs = {(one.txid, index): value for one in self.pending for index, (value, _) in enumerate(one.outputs)}
        worth = [self.coins[point]["value"] if point in self.coins else outputs.get(point) for point in set(tx.inputs)]
        return None if None in worth else max(0, sum(worth) - sum(value for value, _ in tx.outputs))

    def missing(self, place, rate):
        """What a pending transaction lacks of the fee at a rate."""
        paid = self.paid(place)
        return 0 if paid is None else max(0, fee(rate, -(-self.pending[place].weight // 4)) - paid)

    def price(self, coin, rate):
        """What raises a coin's transaction and its ancestors to a rate, each by itself."""
        kin = [] if coin["place"] is None else self.kin(coin["place"])
        return sum(self.missing(place, rate) for place in kin if self.state[place] == "pending")
