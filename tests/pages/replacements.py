"""What a request with `bump` comes to before its searches, by docs/FORMATS.md alone: the first cause why the payment isn't replaced,
or the coins that are spent in any case, those that may be added, and the burden. And the same of any other request: what its plan
is refused for. The coins and states are those of pages/answers.py. For tests/mutate.py and pages/verdicts.py."""

from lib.bitcoin import shown_point
from pages.answers import Request
from pages.chain import Chain, fee
from pages.psbt_faults import MAX_MONEY, Fault

MOST = 100
INCREMENT = 1_000


def vsize(weight):
    return -(-weight // 4)


class Replaced:
    """The payment at a place of `pending`, and its descendants in the state pending."""

    def __init__(self, chain, place):
        self.chain, self.place = chain, place
        later = [one for one, state in enumerate(chain.state) if state == "pending"]
        self.places = [one for one in later if place in chain.kin(one)]
        self.txs = [chain.pending[one] for one in self.places]
        self.payment = chain.pending[place]
        self.outputs = {(tx.txid, index): value for tx in self.txs for index, (value, _) in enumerate(tx.outputs)}

    def worth(self, point):
        """What a coin or an output of what is replaced is worth; None where the outpoint is neither."""
        coin = self.chain.coins.get(point)
        return self.outputs.get(point) if coin is None else coin["value"]

    def foreign(self):
        """The first outpoint of which it isn't known what it is worth, or None."""
        points = [point for point in self.payment.inputs if point not in self.chain.coins]
        points += [point for tx in self.txs for point in tx.inputs if self.worth(point) is None]
        return next(iter(points), None)

    def fee_of(self, tx):
        paid = sum(map(self.worth, set(tx.inputs))) - sum(value for value, _ in tx.outputs)
        return min(MAX_MONEY, max(0, paid))

    def signals(self):
        kin = [self.chain.pending[one] for one in self.chain.kin(self.place) if self.chain.state[one] == "pending"]
        return any(tx.signals for tx in kin)


def is_at(chain, txid):
    """The place of a pending payment of this txid, as it is shown; fails with its state."""
    place = chain.places.get(bytes.fromhex(txid)[::-1])
    if place is None:
        raise Fault("bump NotPending None")
    state = chain.state[place]
    if state != "pending":
        raise Fault(f"bump NotPending {state[0].upper()}{state[1:]}")
    return place


def test(replaced, rate):
    """Fails with the first cause why this isn't replaced at this rate."""
    if not replaced.signals():
        raise Fault("bump NotSignalling")
    foreign = replaced.foreign()
    if foreign is not None:
        raise Fault(f"bump ForeignInput {shown_point(foreign)}")
    if len(replaced.txs) > MOST:
        raise Fault(f"bump TooManyEvicted {len(replaced.txs)}")
    if rate < INCREMENT:
        raise Fault("bump RateBelowIncrement")
    paid, size = replaced.fee_of(replaced.payment), vsize(replaced.payment.weight)
    if rate * size <= 1000 * paid:
        raise Fault(f"bump RateNotHigher {paid} {size}")


class Replacement(Request):
    """A request that replaces a payment; fails where it isn't replaced."""

    def __init__(self, given, wallet, blocks):
        chain = Chain(wallet, blocks)
        super().__init__(given, wallet, chain)
        self.replaced = Replaced(chain, is_at(chain, given["bump"]))
        test(self.replaced, self.rate)
        presets = [chain.coins[point] for point in dict.fromkeys(self.replaced.payment.inputs)]
        self.take(presets, self.added(wallet, blocks))
        fees = sum(map(self.replaced.fee_of, self.replaced.txs))
        size = vsize(self.terms(len(presets))[0] + self.preset_weight)
        self.burden = max(0, fees + fee(INCREMENT, size) + 1 - fee(self.rate, size))

    def added(self, wallet, blocks):
        """The confirmed candidates, as if what is replaced had never been written down."""
        left = [tx for place, tx in enumerate(wallet["pending"]) if place not in self.replaced.places]
        return [coin for coin in Chain({**wallet, "pending": left}, blocks).candidates if coin["place"] is None]


def asked(given, wallet, blocks):
    """The request on the chain of these files; fails with the line by which it, or its plan, is refused."""
    if "bump" in given:
        request = Replacement(given, wallet, blocks)
    else:
        request = Request(given, wallet, Chain(wallet, blocks))
    points = [coin["point"] for coin in request.candidates]
    worth = sum(coin["value"] for coin in request.candidates + [coin for coin in request.presets if coin["point"] not in points])
    if worth > MAX_MONEY:
        raise Fault(f"plan Total {worth}")
    if request.lost:
        raise Fault(f"plan NotEligible {shown_point(request.lost[0])}")
    return request
