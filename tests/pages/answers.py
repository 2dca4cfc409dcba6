"""What requests come to by docs/FORMATS.md and docs/CLOSING_LOG.md alone: which coins of which row are chosen, by trying every choice,
and whether each section of LOG is what its problem calls for: its digest, its letters one by one."""
import hashlib
import itertools
import struct

from lib.bitcoin import point_of, shown_point
from pages.chain import fee

ALPHABET = "qpzry9x8gf2tvdw0s3jn54khce6mua7l"
ROWS = [  # number, depth of own and of foreign groups, ancestors, descendants, partial groups, unsafe coins
    (1, 1, 6, 0, 0, False, False), (2, 1, 1, 0, 0, False, False), (3, 0, 1, 2, 2, False, False), (4, 0, 1, 4, 4, False, False),
    (5, 0, 1, 12, 12, False, False), (6, 0, 1, 24, 24, True, False), (7, 0, 0, 24, 24, True, True),
]
MOST = 12  # groups of a row of which every choice is tried


# ---- requests


def script_of(address):
    """The script of an address that is in order."""
    values = [ALPHABET.index(letter) for letter in address.lower().rsplit("1", 1)[1]][:-6]
    waiting = bits = 0
    program = b""
    for value in values[1:]:
        waiting, bits = waiting << 5 | value, bits + 5
        if bits >= 8:
            bits -= 8
            program += bytes([waiting >> bits & 255])
    return bytes([values[0] + 0x50 if values[0] else 0, len(program)]) + program


def input_fee(rate, weight):
    return fee(rate, -(-weight // 4))


def length_of(number):
    return 1 if number < 253 else 3 if number < 65536 else 5


def output_size(script):
    return 8 + length_of(len(script)) + len(script)


def is_program(script):
    return 4 <= len(script) <= 42 and (script[0] == 0 or 0x51 <= script[0] <= 0x60) and script[1] == len(script) - 2


def dust(script):
    if script[:1] == b"\x6a" or len(script) > 10_000:
        return 0
    return fee(3000, output_size(script) + (67 if is_program(script) else 148))


class Request:
    """A request on a chain: its rates, what it needs, what is spent in any case, and what may be added."""

    burden = 0

    def __init__(self, request, wallet, chain):
        self.given, self.chain = request, chain
        self.rate, self.long_term = request["rate"], request.get("long_term", 10_000)
        self.method = request.get("method", "auto")
        self.recipients = [(bytes.fromhex(one["script"]) if "script" in one else script_of(one["address"]), one["amount"])
                           for one in request["recipients"]]
        self.paid = sum(amount for _, amount in self.recipients)
        self.change = change = bytes.fromhex(wallet["change"]["script"])
        self.change_size = output_size(change)
        self.change_fee = fee(self.rate, self.change_size)
        self.change_spend = input_fee(request.get("discard", 10_000), wallet["change"]["weight"])
        self.least = max(dust(change), self.change_spend + 1)
        self.aim = max(self.least, request.get("change_target", 50_000))
        listed, unsafe = [point_of(coin) for coin in request.get("coins", [])], request.get("include_unsafe", False)
        self.take([coin for coin in chain.candidates if coin["point"] in listed and (coin["safe"] or unsafe)], chain.candidates)
        points = [coin["point"] for coin in self.presets]
        self.lost = [point for point in listed if point not in points]

    def take(self, presets, candidates):
        """Spends these in any case, and adds of those."""
        points = [coin["point"] for coin in presets]
        self.presets, self.candidates = presets, candidates
        self.prices = {coin["point"]: self.chain.price(coin, self.rate) for coin in presets + candidates}
        self.rest = [coin for coin in candidates if coin["point"] not in points and self.brings(coin) > 0]
        self.preset_weight = sum(coin["weight"] for coin in presets)

    def charge(self, coin):
        """What a coin takes for itself: its input's fee, and its price."""
        return input_fee(self.rate, coin["weight"]) + self.prices[coin["point"]]

    def brings(self, coin):
        return coin["value"] - self.charge(coin)

    def cost(self, coin):
        return self.charge(coin) - input_fee(self.long_term, coin["weight"])

    def terms(self, coins):
        """The base weight with so many coins at hand, and what is needed beyond the listed coins."""
        outputs = sum(output_size(script) for script, _ in self.recipients)
        base = 4 * (4 + (1 if coins <= 252 else 3) + length_of(len(self.recipients) + 1) + outputs + 4) + 2
        needed = self.paid + fee(self.rate, -(-base // 4)) + self.burden - sum(map(self.brings, self.presets))
        return base, needed if self.presets else max(1, needed)

    def alone(self):
        """What the listed coins come to by themselves: None where they fall short."""
        base, needed = self.terms(len(self.presets))
        if not self.presets or needed > 0:
            return None
        weight, points = base + self.preset_weight, sorted(coin["point"] for coin in self.presets)
        if -needed < self.change_fee + self.least:
            return ("given", 0, "presets", points, None) if weight <= 400_000 else ("none",)
        fits = weight + 4 * self.change_size <= 400_000
        return ("given", 0, "presets", points, -needed - self.change_fee) if fits else ("none",)

    def rows(self):
        if not self.given.get("zero_conf", True):
            return ROWS[:2]
        return ROWS if self.given.get("include_unsafe") else ROWS[:6]

    def columns(self):
        high = ["lean-big"] if self.rate > 3 * self.long_term else []
        return {"auto": [["changeless", *high, "draw"], ["lean-small"]], "changeless": [["changeless"]],
                "weight": [["lean-big"], ["lean-small"]], "draw": [["draw"], ["lean-small"]], "manual": []}[self.method]

    def pool(self, row):
        """The groups that a row keeps, in order."""
        _, own, foreign, ancestors, descendants, partial, unsafe = row
        groups = [([coin], False) for coin in self.rest]
        if self.given.get("group"):
            groups = []
            for script in dict.fromkeys(coin["script"] for coin in self.rest):
                coins = [coin for coin in self.rest if coin["script"] == script]
                parts = [coins[at:at + 100] for at in range(0, len(coins), 100)]
                groups += [(part, len(part) < 100 and len(parts) > 1) for part in parts]
        kept = [group for group, is_partial in groups
                if (partial or not is_partial)
                and min(coin["depth"] for coin in group) >= (own if all(coin["mine"] for coin in group) else foreign)
                and sum(coin["ancestors"] for coin in group) <= ancestors
                and max(coin["descendants"] for coin in group) <= descendants
                and (unsafe or all(coin["safe"] for coin in group))]
        return sorted(kept, key=lambda group: (-sum(map(self.brings, group)), sum(coin["weight"] for coin in group),
                                               sum(map(self.cost, group)), min(coin["point"] for coin in group)))


# ---- problems


class Problem:
    """What a stage looks for among the groups of a row."""

    def __init__(self, request, groups, stage):
        self.terms = base, needed = request.terms(len(request.presets) + sum(map(len, groups)))
        self.items = [(sum(map(request.brings, group)), sum(coin["weight"] for coin in group), sum(map(request.cost, group)))
                      for group in groups]
        self.changeless = stage == "changeless"
        small, big = needed + request.change_fee + request.least, needed + request.change_fee + request.aim
        self.lo = needed if self.changeless else small if stage == "lean-small" else big
        self.hi = small - 1 if self.changeless else self.lo
        self.limit = max(0, 400_000 - base - request.preset_weight - (0 if self.changeless else 4 * request.change_size))
        self.ending = 0 if self.changeless else request.change_fee + request.change_spend
        self.change = None if self.changeless else needed + request.change_fee

    def sums(self, places):
        return tuple(sum(self.items[place][part] for place in places) for part in range(3))

    def digest(self):
        data = struct.pack("<BQQQI", 0 if self.changeless else 1, self.lo, self.hi, self.limit, len(self.items))
        return hashlib.sha256(data + b"".join(struct.pack("<QQq", *item) for item in self.items)).hexdigest()

    def is_admissible(self, places):
        value, weight, _ = self.sums(places)
        if value < self.lo or weight > self.limit:
            return False
        return not self.changeless or (value <= self.hi and all(value - self.items[place][0] < self.lo for place in places))

    def score(self, places):
        value, weight, cost = self.sums(places)
        return (cost + value - self.lo, 0) if self.changeless else (weight, value)

    def waste(self, places):
        value, _, cost = self.sums(places)
        return cost + value - self.lo if self.changeless else cost + self.ending

    def best(self):
        """The best of all choices, by trying each."""
        places = range(len(self.items))
        choices = [choice for size in range(1, len(self.items) + 1) for choice in itertools.combinations(places, size)]
        fit = [choice for choice in choices if self.is_admissible(choice)]
        return min(fit, key=lambda choice: (self.score(choice), [place not in choice for place in places]), default=None)

    def drawn(self, seed):
        """What the seed draws."""
        order, kept = list(range(len(self.items))), []
        words = chacha(seed, len(order))
        for last in range(len(order) - 1, 0, -1):
            other = next(words) % (last + 1)
            order[last], order[other] = order[other], order[last]
        for place in order:
            kept.append(place)
            while self.sums(kept)[1] > self.limit:
                kept.remove(max(kept, key=lambda one: (-self.items[one][0], one)))
            if self.sums(kept)[0] >= self.lo:
                return tuple(sorted(kept))
        return None

    def are_twins(self, one, other):
        return self.items[one] == self.items[other] if self.changeless else self.items[one][0] == self.items[other][0]

    def accepts(self, letters, answer):
        """Whether letters are the whole tree, each allowed where it stands, and meet the answer."""
        if answer is not None and not self.is_admissible(answer):
            return False
        count, waiting, met = len(self.items), [((), 0)], False
        for letter in letters:
            if not waiting:
                return False
            chosen, at = waiting.pop()
            if letter == "I" and at < count:
                waiting += [(chosen, at + 1), (chosen + (at,), at + 1)]
            elif letter == "T" and 0 < at < count and at - 1 not in chosen and self.are_twins(at - 1, at):
                waiting.append((chosen, next((one for one in range(at, count) if not self.are_twins(at - 1, one)), count)))
            elif not self.closes(letter, chosen, at, answer, met):
                return False
            met = met or (letter == "A" and chosen == answer)
        return not waiting and (answer is None or met)

    def closes(self, letter, chosen, at, answer, met):
        """Whether a letter may close a node."""
        value, weight, cost = self.sums(chosen)
        short, later = value < self.lo, self.items[at:]
        least = min((item[1] for item in later), default=0)
        if letter in ("S", "O", "H"):
            return {"S": value + sum(item[0] for item in later) < self.lo, "O": self.changeless and value > self.hi,
                    "H": weight > self.limit}[letter]
        if letter == "M":
            return short and bool(later) and weight + least > self.limit
        if letter == "A":
            beaten = answer is not None and (chosen == answer or self.score(chosen) > self.score(answer)
                                             or (self.score(chosen) == self.score(answer) and met))
            return not short and (beaten or not self.is_admissible(chosen))
        if answer is None or letter not in ("W", "L", "F"):
            return False
        limit = self.score(answer)[0]
        if letter == "W":
            wasted = cost + max(0, value - self.lo)
            return self.changeless and all(item[2] >= 0 for item in self.items) and (wasted > limit or (wasted == limit and met))
        if letter == "L":
            return not self.changeless and weight > limit
        return not self.changeless and short and bool(later) and weight - (value - self.lo) // later[0][0] * least > limit


def chacha(key, count):
    """So many words at least of ChaCha20 with this key, stream 0 (RFC 8439)."""

    def quarter(x, a, b, c, d):
        for one, two, three, turn in ((a, b, d, 16), (c, d, b, 12), (a, b, d, 8), (c, d, b, 7)):
            x[one] = (x[one] + x[two]) & 0xFFFFFFFF
            mixed = x[three] ^ x[one]
            x[three] = (mixed << turn | mixed >> (32 - turn)) & 0xFFFFFFFF

    for block in range(count // 16 + 1):
        state = [0x61707865, 0x3320646E, 0x79622D32, 0x6B206574, *struct.unpack("<8I", key), block, 0, 0, 0]
        x = list(state)
        for _ in range(10):
            for column in range(4):
                quarter(x, column, 4 + column, 8 + column, 12 + column)
            for column in range(4):
                quarter(x, column, 4 + (column + 1) % 4, 8 + (column + 2) % 4, 12 + (column + 3) % 4)
        yield from ((one + two) & 0xFFFFFFFF for one, two in zip(x, state))


# ---- the answer and its log


def steps(request):
    """The columns of each row, each with its stages, their problems, and the row's groups."""
    for row in request.rows() if request.columns() else []:
        groups = request.pool(row)
        for column in request.columns():
            yield row[0], groups, [(stage, Problem(request, groups, stage)) for stage in column]


def searches(request, answers):
    """The searches to which a run comes, the first ones having these answers: row, stage and problem. It ends with the first column
    that has a result."""
    if request.alone() is not None:
        return
    seed, known = bytes.fromhex(request.given.get("seed", "00" * 32)), iter(answers)
    for row, _, column in steps(request):
        found = False
        for stage, problem in column:
            if stage == "draw":
                found = found or problem.drawn(seed) is not None
                continue
            yield row, stage, problem
            found = found or next(known, None) is not None
        if found:
            return


def answer(request):
    """Mark, row, stage, coins and change; `none`; or None where there are too many groups to try each choice."""
    alone = request.alone()
    if alone is not None or request.method == "manual":
        return alone or ("none",)
    seed = bytes.fromhex(request.given.get("seed", "00" * 32))
    for row, groups, column in steps(request):
        if len(groups) > MOST:
            return None
        found = []
        for stage, problem in column:
            places = problem.drawn(seed) if stage == "draw" else problem.best()
            if places is not None:
                found.append((problem.waste(places), -sum(len(groups[place]) for place in places), stage, problem, places))
        if found:
            _, _, stage, problem, places = min(found, key=lambda one: one[:2])
            points = sorted(coin["point"] for coin in request.presets + [coin for place in places for coin in groups[place]])
            change = None if problem.change is None else problem.sums(places)[0] - problem.change
            return "drawn" if stage == "draw" else "exhausted", row, stage, points, change
    return ("none",)


def sections_of(log):
    lines = log.split("\n")
    assert lines[0] == "fund-log 1" and lines[-2:] == ["end", ""] and len(lines) % 3 == 0, "the log's form"
    for at in range(1, len(lines) - 2, 3):
        _, row, stage, digest = lines[at].split(" ")
        places = lines[at + 2].split(" ")[1:]
        yield int(row), stage, digest, lines[at + 1][7:], None if places == ["none"] else tuple(map(int, places))


def check_log(request, log, mark, tries):
    """Whether the log has the searches that are due, each accepted with its answer, and as many tries as are reported."""
    sections = list(sections_of(log))
    due = iter(sections)
    for row, stage, problem in searches(request, [section[4] for section in sections]):
        section = next(due, None)
        if section is None:
            assert mark == "partial", "a search is missing"
            return
        assert section[:3] == (row, stage, problem.digest()), "another search than the one that is due"
        assert problem.accepts(section[3], section[4]), f"letters that aren't accepted: {section[3]}"
    assert next(due, None) is None and mark != "partial", "more searches than are due"
    assert sum(section[3].count("I") for section in sections) == tries, "the tries"


def judge(request, status, printed, log):
    """What kind of end a request comes to; fails where it isn't the one that is due."""
    if request.lost:
        assert status == 3 and printed == f"fault input plan NotEligible {shown_point(request.lost[0])}\n", printed
        return "refused"
    lines = [line.split(" ") for line in printed.splitlines()]
    kind = lines[0][-1]
    told = {line[0]: line[-1] for line in lines}
    budget = request.given.get("tries", 100_000)
    if kind == "unfinished":
        assert status == 10 and log is None and int(told["tries"]) == budget, printed
        return kind
    check_log(request, log, kind, int(told["tries"]))
    points = sorted(point_of(line[1]) for line in lines if line[0] == "in")
    if kind == "partial":
        assert {coin["point"] for coin in request.presets} <= set(points) and int(told["tries"]) == budget, printed
        return kind
    due = answer(request)
    if due is None:
        return "many groups"
    change = None if told.get("change", "none") == "none" else int(told["change"])
    is_so = (kind, int(told["row"]), told["stage"], points, change) if kind != "none" else ("none",)
    assert due == is_so and status == (11 if kind == "none" else 0), f"{due} is due: {printed}"
    return kind
