"""Runs by docs/CLOSING_LOG.md and docs/FORMATS.md alone, with each sum from scratch: the walks of the searches, try by try; what
a run comes to within its tries, from its begin or from a kept position; its log and its report. The coins and problems are those
of pages/answers.py. For tests/mutate.py."""

import base64
import typing

from lib.bitcoin import compact, input_bytes, output_bytes, serialised, shown_point, string
from pages.answers import is_program, steps

MOST = 10_000_000
MOST_LETTERS = 4_000


class TooLong(Exception):
    """A walk of too many letters to be made here."""


class Walk:
    """A search's walk: the chosen places, the next one, the best so far, and the letters."""

    # what is written where no place is left
    last = "S"

    def __init__(self, problem):
        self.problem, self.items = problem, problem.items
        self.chosen, self.next, self.best, self.letters = [], 0, None, ""
        self.done = sum(item[0] for item in self.items) < problem.lo
        self.letters += "S" * self.done

    def restore(self, said, letters):
        self.chosen, self.next, self.best = list(said["chosen"]), said["next"], tuple(said["best"]) or None
        self.letters, self.done = letters, False
        return self

    def go(self):
        """One try."""
        place, problem = self.next, self.problem
        self.chosen.append(place)
        value, weight, cost = problem.sums(self.chosen)
        later = self.items[place + 1 :]
        letter = self.letter_of(value, weight, cost, later)
        self.letters += "I" + letter
        if letter == "A" and problem.is_admissible(self.chosen):
            if self.best is None or problem.score(self.chosen) < problem.score(self.best):
                self.best = tuple(self.chosen)
        is_light = not later or self.items[place][1] <= min(item[1] for item in later)
        if letter == "":
            self.next = place + 1
        elif letter == "S" or (letter in "HLF" and is_light):
            self.cut("M" if letter == "H" else "F", value - self.items[place][0], later)
        else:
            self.shift()

    def letter_of(self, value, weight, cost, later):
        """The letter of the first rule that applies, or none where the walk goes on."""
        problem, lo = self.problem, self.problem.lo
        if value + sum(item[0] for item in later) < lo:
            return "S"
        if problem.changeless and value > problem.hi:
            return "O"
        if weight > problem.limit:
            return "H"
        best = None if self.best is None else problem.score(self.best)[0]
        if best is not None and problem.changeless:
            if all(item[2] >= 0 for item in self.items) and cost + max(0, value - lo) >= best:
                return "W"
        elif best is not None and weight > best:
            return "L"
        if value >= lo:
            return "A"
        if best is not None and not problem.changeless:
            needed = -((value - lo) // self.items[self.chosen[-1]][0])
            if weight + needed * min(item[1] for item in later) > best:
                return "F"
        return ""

    def cut(self, letter, value, later):
        self.chosen.pop()
        self.letters += "S" if value + sum(item[0] for item in later) < self.problem.lo else letter
        if self.chosen:
            self.shift()
        else:
            self.end()

    def shift(self):
        while True:
            last = self.chosen.pop()
            place = last + 1
            while place < len(self.items) and self.problem.are_twins(last, place):
                place += 1
            self.letters += "T" * (place > last + 1)
            self.next = place
            if place < len(self.items):
                return
            self.letters += self.last
            if not self.chosen:
                self.end()
                return

    def end(self):
        self.chosen, self.next, self.done = [], len(self.items), True


def psbt_of(request, coins, change):
    """The PSBT of a payment, written with as few pairs as will do."""
    sequence = 0xFFFFFFFD if request.given.get("replaceable", True) else 0xFFFFFFFE
    outputs = request.recipients + ([] if change is None else [(request.change, change)])
    version, locktime = (number.to_bytes(4, "little") for number in (2, request.given.get("locktime", 0)))
    inputs = [(coin["point"][0], coin["point"][1].to_bytes(4, "little"), sequence.to_bytes(4, "little")) for coin in coins]
    paid = [(amount.to_bytes(8, "little"), script) for script, amount in outputs]
    fields = request.given.get("psbt", 0) == 2
    if fields:
        counts = compact(len(inputs)), compact(len(paid))
        data = b"psbt\xff" + map_of((2, version), (3, locktime), (4, counts[0]), (5, counts[1]), (0xFB, version))
    else:
        spent = [input_bytes(*coin["point"], sequence) for coin in coins]
        own = [output_bytes(amount, script) for script, amount in outputs]
        data = b"psbt\xff" + map_of((0, serialised(spent, own, locktime=int.from_bytes(locktime, "little"))))
    for coin, own in zip(coins, inputs):
        known = 1, coin["value"].to_bytes(8, "little") + string(coin["script"])
        if not is_program(coin["script"]):
            known = 0, coin["whole"]
        data += map_of(known, *zip((0x0E, 0x0F, 0x10), own if fields else ()))
    return data + b"".join(map_of(*zip((3, 4), one if fields else ())) for one in paid)


def map_of(*pairs):
    """A map of pairs, each of a type and a value."""
    return b"".join(b"\x01" + bytes([kind]) + string(value) for kind, value in pairs) + b"\0"


class Outcome(typing.NamedTuple):
    """How a run ends: a mark, `none` or `unfinished`; row and stage; of a payment its coins, its change, and of the request's
    terms the base and what is needed."""

    kind: str
    row: int = 0
    stage: str = "presets"
    coins: typing.Any = None
    change: typing.Any = None
    terms: typing.Any = None


class Run:
    """What a request comes to within a budget, from its begin or from the closed sections, the open letters and the position that
    are kept. `sections` has each search that is done, with its problem."""

    def __init__(self, request, budget, kept=((), "", None)):
        self.request, self.closed, self.letters, self.said = request, *kept
        self.tries = 0 if self.said is None else self.said["tries"]
        self.left = min(budget, MOST - self.tries)
        self.sections, self.outcome = [], None
        alone = request.alone()
        if alone is not None and alone[0] == "given":
            self.outcome = Outcome("given", 0, "presets", request.presets, alone[4], request.terms(len(request.presets)))
        elif alone is not None or request.method == "manual":
            self.outcome = Outcome("none")
        for row, groups, column in steps(request) if self.outcome is None else ():
            self.outcome = self.column(row, groups, column)
            if self.outcome is not None:
                break
        self.outcome = self.outcome or Outcome("none")

    def column(self, row, groups, column):
        found = []
        for order, (stage, problem) in enumerate(column):
            if stage == "draw":
                places = self.drawn(problem)
            else:
                walk = self.walk(problem)
                if walk is not None and not walk.done:
                    found += self.so_far(walk, order, column)
                    takes = self.request.given.get("when_unfinished", "take") == "take" and found
                    return self.chosen("partial", row, groups, found) if takes else Outcome("unfinished", row, stage)
                places = self.closed[len(self.sections)][4] if walk is None else walk.best
                letters = self.closed[len(self.sections)][3] if walk is None else walk.letters
                self.sections.append((row, stage, problem, letters, places))
            if places is not None:
                found.append((problem, order, stage, places))
        return self.chosen(None, row, groups, found) if found else None

    def so_far(self, walk, order, column):
        """The best of an open walk, and the draws after it, which are made even so."""
        found = [(walk.problem, order, column[order][0], walk.best)]
        found += [(one, at, stage, self.drawn(one)) for at, (stage, one) in enumerate(column) if stage == "draw" and at > order]
        return [one for one in found if one[3] is not None]

    def drawn(self, problem):
        return problem.drawn(bytes.fromhex(self.request.given.get("seed", "00" * 32)))

    def walk(self, problem):
        """The walk of the search that comes now, as far as the tries go; None where its section is kept."""
        index = len(self.sections)
        if index < len(self.closed):
            return None
        walk = Walk(problem)
        if self.said is not None and index == len(self.closed):
            walk.restore(self.said, self.letters)
        while not walk.done and self.left > 0:
            if len(walk.letters) > MOST_LETTERS:
                raise TooLong
            walk.go()
            self.left, self.tries = self.left - 1, self.tries + 1
        return walk

    def chosen(self, mark, row, groups, found):
        """The result of least waste, of most coins, the first."""
        def rank(one):
            return one[0].waste(one[3]), -sum(len(groups[place]) for place in one[3]), one[1]

        problem, _, stage, places = min(found, key=rank)
        coins = self.request.presets + [coin for place in places for coin in groups[place]]
        change = None if problem.change is None else problem.sums(places)[0] - problem.change
        return Outcome(mark or ("drawn" if stage == "draw" else "exhausted"), row, stage, coins, change, problem.terms)

    def log(self):
        text = "fund-log 1\n"
        for row, stage, problem, letters, places in self.sections:
            answer = "none" if places is None else " ".join(map(str, places))
            text += f"section {row} {stage} {problem.digest()}\ntokens {letters}\nanswer {answer}\n"
        return text + "end\n"

    def report(self):
        if self.outcome.coins is not None:
            return self.payment()
        kind, row, stage, *_ = self.outcome
        return f"{kind}\ntries {self.tries}\n" + f"row {row}\nstage {stage}\n" * (kind == "unfinished")

    def payment(self):
        """The report of a payment."""
        request, (kind, row, stage, coins, change, (base, needed)) = self.request, self.outcome
        coins = sorted(coins, key=lambda coin: coin["point"])
        paid = sum(coin["value"] for coin in coins) - request.paid - (change or 0)
        weight = base + sum(coin["weight"] for coin in coins) + (0 if change is None else 4 * request.change_size)
        over = sum(map(request.brings, coins)) - sum(map(request.brings, request.presets)) - needed
        waste = sum(map(request.cost, coins)) + (over if change is None else request.change_fee + request.change_spend)
        return (f"funded {kind}\nrow {row}\nstage {stage}\ntries {self.tries}\n"
                + "".join(f"in {shown_point(coin['point'])} {coin['value']}\n" for coin in coins)
                + f"weight {weight}\nvsize {-(-weight // 4)}\nfee {paid}\nwaste {waste}\n"
                + f"change {'none' if change is None else change}\n"
                + f"psbt {base64.b64encode(psbt_of(request, coins, change)).decode()}\n")
