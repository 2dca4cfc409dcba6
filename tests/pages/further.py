"""What `wide`, `share` and `sweep` come to by docs/FORMATS.md and docs/CLOSING_LOG.md alone: their refusals, reports and logs. Coins,
problems and usual walks are those of chain.py, answers.py and runs.py. Each section of a log is checked letter by letter."""
import base64
import json

from lib.bitcoin import shown_point
from pages.answers import ROWS, Problem, Request, dust, input_fee, sections_of
from pages.chain import Chain, fee
from pages.psbt_faults import MAX_MONEY
from pages.runs import MOST_LETTERS, Outcome, Run, TooLong, Walk, psbt_of

MOST_GROUPS = 10_000
MOST_WEIGHT = 400_000


class Refused(Exception):
    """A refusal, with its line."""


def vsize(weight):
    return -(-weight // 4)


def check_worth(chain):
    """Fails where all candidates together are worth too much."""
    worth = sum(coin["value"] for coin in chain.candidates)
    if worth > MAX_MONEY:
        raise Refused(f"fault input plan Total {worth}\n")


def pool_of(request, row):
    """The groups that a row keeps; fails where they are too many."""
    groups = request.pool(row)
    if len(groups) > MOST_GROUPS:
        raise Refused("fault limit groups\n")
    return groups


def in_lines(coins):
    return "".join(f"in {shown_point(coin['point'])} {coin['value']}\n" for coin in coins)


def psbt_line(request, coins, change):
    return f"psbt {base64.b64encode(psbt_of(request, coins, change)).decode()}\n"


# ---- the wide search


class WideWalk(Walk):
    """A wide search's walk."""

    last = "N"

    def go(self):
        """One try."""
        place, problem = self.next, self.problem
        self.chosen.append(place)
        value, weight, cost = problem.sums(self.chosen)
        later = self.items[place + 1 :]
        spent = cost + sum(min(0, item[2]) for item in later) + max(0, value - problem.lo)
        self.letters += "I"
        if value + sum(item[0] for item in later) < problem.lo:
            self.letters += "S"
            self.cut("S", value - self.items[place][0], later)
        elif value > problem.hi or weight > problem.limit or (self.best is not None and spent >= problem.score(self.best)[0]):
            self.letters += "O" if value > problem.hi else "H" if weight > problem.limit else "V"
            self.shift()
        else:
            self.hit(place, value)

    def hit(self, place, value):
        """The chosen places may be the best so far, and the walk goes on."""
        problem = self.problem
        if value >= problem.lo:
            self.letters += "B"
            if self.best is None or problem.score(self.chosen) < problem.score(self.best):
                self.best = tuple(self.chosen)
        self.next = place + 1
        if self.next == len(self.items):
            self.letters += "N"
            self.shift()


def is_wide(problem, places):
    value, weight, _ = problem.sums(places)
    return bool(places) and problem.lo <= value <= problem.hi and weight <= problem.limit


def accepts_wide(problem, letters, answer):
    """Whether letters are a whole wide tree, each allowed where it stands, and meet the answer."""
    if answer is not None and not is_wide(problem, answer):
        return False
    count, waiting, met = len(problem.items), [((), 0, False)], False
    for letter in letters:
        if not waiting:
            return False
        chosen, at, is_new = waiting.pop()
        is_due = is_new and is_wide(problem, chosen)
        if letter == "B":
            if not is_due or answer is None or not is_beaten(problem, chosen, answer, met):
                return False
            met = met or chosen == answer
            waiting.append((chosen, at, False))
        elif letter == "V":
            if answer is None or not is_wasteful(problem, chosen, at, answer, met):
                return False
        elif is_due:
            return False
        elif letter == "I" and at < count:
            waiting += [(chosen, at + 1, False), (chosen + (at,), at + 1, True)]
        elif letter == "T" and 0 < at < count and at - 1 not in chosen and problem.are_twins(at - 1, at):
            passed = next((one for one in range(at, count) if not problem.are_twins(at - 1, one)), count)
            waiting.append((chosen, passed, False))
        elif not (letter == "N" and at == count) and (letter not in "SOH" or not problem.closes(letter, chosen, at, answer, met)):
            return False
    return not waiting and (answer is None or met)


def is_beaten(problem, chosen, answer, met):
    one, other = problem.score(chosen), problem.score(answer)
    return chosen == answer or one > other or (one == other and met)


def is_wasteful(problem, chosen, at, answer, met):
    """Whether all that goes on from the chosen places wastes more than the answer, or as much after it."""
    value, _, cost = problem.sums(chosen)
    spent = cost + sum(min(0, item[2]) for item in problem.items[at:]) + max(0, value - problem.lo)
    return spent > problem.score(answer)[0] or (spent == problem.score(answer)[0] and met)


class Wide(Run):
    """What a request comes to by the wide search: status, report and log, or None where none is written."""

    def __init__(self, given, wallet, blocks):
        if given.get("method", "auto") != "changeless" or given.get("coins") or "bump" in given:
            raise Refused("fault input plan NotWide\n")
        chain = Chain(wallet, blocks)
        check_worth(chain)
        self.request = request = Request(given, wallet, chain)
        self.budget, self.tries = given.get("tries", 100_000), 0
        self.text = "wide-log 1\n"
        self.outcome = self.search([(row[0], pool_of(request, row)) for row in request.rows()])
        self.status = {"none": 11, "unfinished": 10}.get(self.outcome.kind, 0)
        self.log = None if self.status == 10 else self.text + "end\n"
        self.report = super().report()

    def search(self, pools):
        for row, groups in pools:
            problem = Problem(self.request, groups, "changeless")
            walk = self.walk(problem)
            mark = "exhausted" if walk.done else "partial"
            if walk.done:
                answer = "none" if walk.best is None else " ".join(map(str, walk.best))
                self.text += f"section {row} {problem.digest()}\ntokens {walk.letters}\nanswer {answer}\n"
            if walk.best is not None and (walk.done or self.request.given.get("when_unfinished", "take") == "take"):
                coins = [coin for place in walk.best for coin in groups[place]]
                return Outcome(mark, row, "wide", coins, None, problem.terms)
            if not walk.done:
                return Outcome("unfinished", row, "wide")
        return Outcome("none")

    def walk(self, problem):
        walk = WideWalk(problem)
        while not walk.done and self.tries < self.budget:
            if len(walk.letters) > MOST_LETTERS:
                raise TooLong
            walk.go()
            self.tries += 1
        return walk


def wide_are_accepted(given, wallet, blocks, log):
    """Whether each section of a log of `wide` is that of its row, and its letters prove its answer."""
    request = Request(given, wallet, Chain(wallet, blocks))
    lines = log.split("\n")
    assert lines[0] == "wide-log 1" and lines[-2:] == ["end", ""] and len(lines) % 3 == 0, "the log's form"
    for at, row in zip(range(1, len(lines) - 2, 3), request.rows()):
        problem = Problem(request, request.pool(row), "changeless")
        assert lines[at] == f"section {row[0]} {problem.digest()}", "another section than that of the row"
        places = lines[at + 2].split(" ")[1:]
        answer = None if places == ["none"] else tuple(map(int, places))
        assert accepts_wide(problem, lines[at + 1][7:], answer), "letters that aren't accepted"


# ---- recipients that bear the fee


def share_problem(request, groups):
    """What a row is searched for: by the coins' own values, the least weight that is worth the amounts."""
    problem = Problem(request, groups, "lean-small")
    problem.lo = problem.hi = problem.terms[1]
    return problem


class Share:
    """What a request comes to whose recipients bear the fee: status, report and log, or None where none is written."""

    def __init__(self, given, wallet, blocks):
        if given.get("method", "auto") != "weight" or given.get("coins") or "bump" in given:
            raise Refused("fault input plan NotShare\n")
        chain = Chain(wallet, blocks)
        check_worth(chain)
        self.request = Request(given, wallet, chain)
        # at the rate 0 a coin brings its value, and has no price
        self.plain = Request({**given, "rate": 0}, wallet, chain)
        self.left = self.budget = given.get("tries", 100_000)
        self.log = "fund-log 1\n"
        self.status, self.report = self.search()

    def search(self):
        """The status and the report of the first row that has a choice, or of none."""
        for row in ROWS[:2]:
            groups = pool_of(self.plain, row)
            problem = share_problem(self.plain, groups)
            walk = self.walk(problem)
            tries = self.budget - self.left
            if not walk.done:
                self.log = None
                return 10, f"unfinished\ntries {tries}\nrow {row[0]}\nstage lean-small\n"
            answer = "none" if walk.best is None else " ".join(map(str, walk.best))
            self.log += f"section {row[0]} lean-small {problem.digest()}\ntokens {walk.letters}\nanswer {answer}\n"
            if walk.best is not None:
                return 0, self.paid(row, problem, [coin for place in walk.best for coin in groups[place]])
        self.log += "end\n"
        return 11, f"none\ntries {self.budget - self.left}\n"

    def walk(self, problem):
        walk = Walk(problem)
        while not walk.done and self.left > 0:
            if len(walk.letters) > MOST_LETTERS:
                raise TooLong
            walk.go()
            self.left -= 1
        return walk

    def borne(self, base, coins, change):
        """What the recipients bear together."""
        request = self.request
        need = fee(request.rate, vsize(base)) + sum(input_fee(request.rate, coin["weight"]) for coin in coins)
        if change is not None:
            return need + request.change_fee
        return max(0, need - (sum(coin["value"] for coin in coins) - request.paid))

    def paid(self, row, problem, coins):
        """The report of a payment; fails at the first recipient that can't bear its share."""
        request, base = self.request, problem.terms[0]
        coins = sorted(coins, key=lambda coin: coin["point"])
        over = sum(coin["value"] for coin in coins) - request.paid
        change = over if over >= request.least else None
        each, rest = divmod(self.borne(base, coins, change), len(request.recipients))
        shares = [each + (rest if place == 0 else 0) for place in range(len(request.recipients))]
        for place, ((script, amount), share) in enumerate(zip(request.recipients, shares)):
            if amount < share + dust(script):
                raise Refused(f"fault input plan ShareDust {place}\n")
        request.recipients = [(script, amount - share) for (script, amount), share in zip(request.recipients, shares)]
        self.log += "end\n"
        weight = base + sum(coin["weight"] for coin in coins) + (0 if change is None else 4 * request.change_size)
        pays = "".join(f"pay {place} {amount}\n" for place, (_, amount) in enumerate(request.recipients))
        kept = sum(amount for _, amount in request.recipients) + (change or 0)
        return (f"shared\nrow {row[0]}\ntries {self.budget - self.left}\n{in_lines(coins)}{pays}weight {weight}\n"
                f"vsize {vsize(weight)}\nfee {sum(coin['value'] for coin in coins) - kept}\n"
                f"change {'none' if change is None else change}\n{psbt_line(request, coins, change)}")


def share_problems(given, wallet, blocks):
    """The problems of both rows, by their numbers."""
    request = Request({**given, "rate": 0}, wallet, Chain(wallet, blocks))
    return {row[0]: share_problem(request, request.pool(row)) for row in ROWS[:2]}


# ---- all coins to one recipient


class Sweep:
    """What a request comes to that pays all coins to its one recipient: status and report. No log is written."""

    log = None

    def __init__(self, given, wallet, blocks):
        if len(given["recipients"]) != 1 or given.get("coins") or "bump" in given:
            raise Refused("fault input plan NotSweep\n")
        chain = Chain(wallet, blocks)
        check_worth(chain)
        request = Request({**given, "group": False}, wallet, chain)
        coins = sorted((group[0] for group in pool_of(request, request.rows()[-1])), key=lambda coin: coin["point"])
        base, _ = request.terms(len(coins))
        weight = base + sum(coin["weight"] for coin in coins)
        if weight > MOST_WEIGHT:
            raise Refused(f"fault input plan TooHeavy {weight}\n")
        amount = sum(map(request.brings, coins)) - fee(request.rate, vsize(base))
        self.status, self.report = 11, "none\ntries 0\n"
        if coins and amount >= request.paid:
            request.recipients = [(request.recipients[0][0], amount)]
            taken = sum(coin["value"] for coin in coins) - amount
            self.status, self.report = 0, (f"swept {amount}\n{in_lines(coins)}weight {weight}\nvsize {vsize(weight)}\n"
                                           f"fee {taken}\n{psbt_line(request, coins, None)}")


COMMANDS = {"wide": Wide, "share": Share, "sweep": Sweep}


def due(command, wallet, blocks, given):
    """Status, what is printed and LOG of a command whose files are in order; LOG is None where none is written."""
    try:
        done = COMMANDS[command](json.loads(given), json.loads(wallet), blocks)
    except Refused as refused:
        line = str(refused)
        return 9 if line.startswith("fault limit") else 3, line, None
    return done.status, done.report, done.log


def are_accepted(given, wallet, blocks, log):
    """Whether each section of a log of `share` is that of its row, and its letters prove its answer; how many there are."""
    problems, sections = share_problems(given, wallet, blocks), list(sections_of(log))
    for place, (row, stage, digest, letters, answer) in enumerate(sections):
        assert (row, stage, digest) == (place + 1, "lean-small", problems[row].digest()), "another section than that of the row"
        assert problems[row].accepts(letters, answer), "letters that aren't accepted"
        assert (answer is None) == (place + 1 < len(sections)) or row == 2, "a row after one that has a choice"
    return len(sections)


# ---- cases


def judge(command, files, status, printed, log):
    """What kind of end a case comes to; fails where it isn't the one that is due."""
    wallet, blocks, given = (files[name] for name in ("wallet.json", "blocks.dat", "request.json"))
    if printed.startswith(("fault input request ", "fault input wallet ", "fault input blocks ", "fault input book ")):
        return "refused before this"
    try:
        told = due(command, wallet, blocks, given)
    except TooLong:
        return "too long to be judged"
    assert told == (status, printed, log), f"{told} is due, and not {(status, printed, log)}"
    if log is not None:
        (wide_are_accepted if command == "wide" else are_accepted)(json.loads(given), json.loads(wallet), blocks, log)
    return {0: "paid", 3: "refused", 9: "over a limit", 10: "unfinished", 11: "none"}[status]
