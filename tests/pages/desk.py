"""What a desk replies by docs/FORMATS.md alone, line by line: which lines are commands, which jobs are open, what a job's
answer is (by trying every choice over the coins as they were when it was opened), how far a turn may have come, which coin of
a payment is taken, what a committed PSBT spends and pays, which blocks and transactions come in. Of requests, blocks and
transactions that are refused by their form it tells that there is a fault and not which. A PARTIAL answer, and one over many
groups, is judged by what its PSBT pays. Coins, pools, problems and draws are those of chain.py and answers.py, PSBTs are read by
verdicts.py."""
import base64
import json
import re

from lib.bitcoin import MAGIC, double_sha256, input_bytes, merkle_root, output_bytes, read_blocks, read_tx, serialised, shown, shown_point
from pages.answers import Request, answer
from pages.chain import Chain
from pages.verdicts import meets, psbt_of

NAME = re.compile(rb"[A-Za-z0-9-]{1,32}")
MOST = 10_000_000
LIMITS = {"open": ("request", 1_048_576), "blocks": ("blocks", 67_108_864)}
PLAN_FAULTS = ("bump", "Total", "NotEligible", "TooMany")
REPLY_FAULTS = ("Kind", "Repeat", "ParentLater", "RepeatCoin", "Full")


def command_of(line):
    """The words of a command, or None."""
    words = line.split(b" ")
    verb, rest = words[0], words[1:]

    def is_name(word):
        return NAME.fullmatch(word) is not None

    def is_file(word):
        return len(word) > 0 and word.decode(errors="ignore").encode() == word

    def is_tries(word):
        return re.fullmatch(rb"[1-9][0-9]{0,7}", word) is not None and int(word) <= MOST

    forms = {b"open": (is_name, is_file), b"turn": (is_name, is_tries), b"commit": (is_name,), b"close": (is_name,),
             b"release": (lambda word: re.fullmatch(rb"[0-9a-fA-F]{64}", word),), b"blocks": (is_file,),
             b"pending": (lambda word: len(word) > 0,)}
    form = forms.get(verb)
    if form is None or len(form) != len(rest) or not all(test(word) for test, word in zip(form, rest)):
        return None
    return [word.decode(errors="replace") for word in words]


def good_blocks(data, last):
    """The blocks before the first that isn't in order, each with its bytes and its hash; and whether all are."""
    at, blocks = 0, []
    while at < len(data):
        if not any(data[at:]):
            return blocks, True
        size = int.from_bytes(data[at + 4:at + 8], "little")
        body = data[at + 8:at + 8 + size]
        if data[at:at + 4] != MAGIC or not 81 <= size <= 4_000_000 or len(body) != size or body[4:36] != last:
            return blocks, False
        try:
            txs = read_blocks(data[at:at + 8 + size])[0]
        except (AssertionError, IndexError):
            return blocks, False
        txids = [tx[0] for tx in txs]
        twins = any(txids[one:one + 1] == txids[one + 1:one + 2] for one in range(0, len(txids), 2))
        if not txids or merkle_root(txids) != body[36:68] or twins:
            return blocks, False
        last = double_sha256(body[:80])
        blocks.append((data[at:at + 8 + size], last, txs))
        at += 8 + size
    return blocks, True


class Job:
    """A plan of its snapshot, the tries that it has made, and the answer of its last turn."""

    def __init__(self, request, wallet, chain):
        self.request, self.tries, self.last, self.done = Request(request, wallet, chain), 0, None, False
        self.given = request


class Desk:
    def __init__(self, files):
        self.files = files
        self.wallet = json.loads(files["wallet.json"])
        self.blocks, self.tip = b"", bytes.fromhex(self.wallet["hash"])[::-1]
        self.jobs, self.payments = {}, []
        self.made = {(tx[0], index) for tx in self.earlier() for index in range(len(tx[2])) if self.is_own(tx[2][index])}
        assert self.take(files["blocks.dat"]) is None

    def is_own(self, output):
        return output[1].hex() in [one["script"] for one in self.wallet["scripts"]]

    def earlier(self):
        return [read_tx(bytes.fromhex(one["tx"])) for one in self.wallet.get("earlier", [])]

    def pending(self):
        return [read_tx(bytes.fromhex(one)) for one in self.wallet.get("pending", [])]

    def chain(self):
        return Chain(self.wallet, self.blocks)

    def take(self, data):
        """Adds blocks; None, or what is refused: the coin that comes again, or that a block isn't in order."""
        blocks, all_good = good_blocks(data, self.tip)
        for text, last, txs in blocks:
            coins = [(tx[0], index) for tx in txs for index, output in enumerate(tx[2]) if self.is_own(output)]
            seen = set(self.made)
            for coin in coins:
                if coin in seen:
                    return f"RepeatCoin {shown_point(coin)}"
                seen.add(coin)
            self.made, self.blocks, self.tip = seen, self.blocks + text, last
        return None if all_good else "form"

    def height(self):
        return self.wallet["height"] + len(read_blocks(self.blocks))

    def reserved(self):
        return {point for _, points in self.payments for point in points}

    # ---- each command: what must be replied; or a test of the reply

    def open(self, name, file):
        if name in self.jobs:
            return f"taken-name {name}"
        if len(self.jobs) == 64:
            return "full"
        try:
            given = json.loads(self.files[file])
        except ValueError:
            return f"refused {name} NotJson"
        chain = self.chain()
        chain.candidates = [coin for coin in chain.candidates if coin["point"] not in self.reserved()]

        def judged(reply):
            if reply.startswith(f"refused {name} ") and reply.split(" ")[2] not in PLAN_FAULTS:
                return "refused request"
            if "bump" in given:
                assert reply == f"refused {name} bump", reply
                return "refused bump"
            job = Job(given, self.wallet, chain)
            lost = list(map(shown_point, job.request.lost))
            if lost:
                assert reply == f"refused {name} NotEligible {lost[0]}", f"{lost} are lost: {reply}"
                return "refused plan"
            assert reply == f"opened {name}", reply
            self.jobs[name] = job
            return "opened"
        return judged

    def turn(self, name, tries):
        job = self.jobs.get(name)
        if job is None:
            return f"no-job {name}"
        if job.done:
            return job.last
        if job.tries == MOST:
            return f"spent {name}"
        budget = min(int(tries), MOST - job.tries)

        def judged(reply):
            words = reply.split(" ")
            assert words[0] in ("unfinished", "none", "funded") and words[1] == name, reply
            assert job.tries <= int(words[-1]) <= job.tries + budget, reply
            made, job.tries, job.last = int(words[-1]) - job.tries, int(words[-1]), reply
            if words[0] == "unfinished":
                assert made == budget, reply
                return "unfinished"
            job.done = True
            if words[0] == "funded" and words[2] == "partial":
                assert made == budget and job.given.get("when_unfinished", "take") == "take", reply
                return "partial"
            job.due = answer(job.request)
            if job.due is not None:
                due = ["none"] if job.due == ("none",) else ["funded", job.due[0]]
                assert words[:1] + words[2:-1] == due, f"{job.due}: {reply}"
            return words[0]
        return judged

    def row_of(self, job, points):
        """The row of the answer, where it is known; otherwise the first one that the coins meet."""
        if getattr(job, "due", None) is not None:
            return [row for row in job.request.rows() if row[0] == job.due[1]]
        chosen = [coin for coin in job.request.rest if coin["point"] in points]
        return [row for row in job.request.rows() if all(meets(row, coin) for coin in chosen)][:1]

    def taken(self, job, points):
        now = {coin["point"]: coin for coin in self.chain().candidates}
        rows, presets = self.row_of(job, points), [coin["point"] for coin in job.request.presets]
        for point in points:
            coin = now.get(point)
            if point in presets:
                is_good = coin is not None and (coin["safe"] or job.given.get("include_unsafe", False))
            else:
                is_good = coin is not None and rows and meets(rows[0], coin)
            if point in self.reserved() or not is_good:
                return point
        return None

    def commit(self, name):
        job = self.jobs.get(name)
        if job is None:
            return f"no-job {name}"
        if job.last is None or not job.last.startswith("funded "):
            return f"not-funded {name}"

        def judged(reply):
            words, due = reply.split(" "), getattr(job, "due", None)
            if words[0] == "taken":
                if due is not None:
                    assert reply == f"taken {name} {shown_point(self.taken(job, due[3]))}", reply
                return "taken"
            assert words[:2] == ["committed", name] and len(words) == 4, reply
            tx, spent = psbt_of(words[3].encode())
            _, inputs, outputs, locktime = tx
            # the first pair of what is written is of type 00 in version 0, and of type 02 in version 2
            version = job.given.get("psbt", 0)
            assert base64.b64decode(words[3])[5:7] == bytes([1, version]), f"not of version {version}"
            points = [one[0] for one in inputs]
            assert points == sorted(points) and (due is None or points == due[3]), f"{due}: {reply}"
            assert self.taken(job, points) is None, f"{self.taken(job, points)} is taken"
            coins = {coin["point"]: coin for coin in job.request.presets + job.request.rest}
            assert all(coin["point"] in points for coin in job.request.presets) and locktime == job.given.get("locktime", 0)
            for point, (_, paid) in zip(points, spent):
                assert paid in (None, (coins[point]["value"], coins[point]["script"])), "another output than the coin's"
            recipients = [(amount, script) for script, amount in job.request.recipients]
            change = bytes.fromhex(self.wallet["change"]["script"])
            rest = outputs[len(recipients):]
            assert outputs[:len(recipients)] == recipients and all(script == change for _, script in rest) and len(rest) <= 1
            if due is not None:
                assert [value for value, _ in rest] == ([] if due[4] is None else [due[4]]), f"{due}: {reply}"
            txid = self.txid(tx)
            assert words[2] == shown(txid), f"the txid is {shown(txid)}"
            del self.jobs[name]
            self.payments.append((txid, points))
            return "committed"
        return judged

    @staticmethod
    def txid(tx):
        version, inputs, outputs, locktime = tx
        spent = [input_bytes(*point, sequence, script) for point, script, sequence in inputs]
        return double_sha256(serialised(spent, [output_bytes(*one) for one in outputs], None, version, locktime))

    def close(self, name):
        return f"closed {name}" if self.jobs.pop(name, None) is not None else f"no-job {name}"

    def release(self, word):
        txid = bytes.fromhex(word)[::-1]
        kept = [payment for payment in self.payments if payment[0] != txid]
        found, self.payments = len(kept) < len(self.payments), kept
        return f"{'released' if found else 'not-committed'} {shown(txid)}"

    def take_blocks(self, file):
        fault = self.take(self.files[file])

        def judged(reply):
            if fault == "form":
                assert reply.startswith("refused blocks ") and reply.split(" ")[2] not in REPLY_FAULTS, reply
                return "refused blocks"
            due = f"tip {self.height()} {shown(self.tip)}" if fault is None else f"refused blocks {fault}"
            assert reply == due, f"{due} is due: {reply}"
            return due.split(" ")[0]
        return judged

    def take_pending(self, word):
        try:
            data = bytes.fromhex(word) if re.fullmatch("([0-9a-fA-F]{2})*", word) else None
        except ValueError:
            data = None
        if data is None:
            return "refused pending Kind"
        try:
            tx = read_tx(data)
            assert tx[3] == len(data)
        except (AssertionError, IndexError):
            return lambda reply: self.has_form_fault(reply)
        if tx[0] in [one[0] for one in self.pending()]:
            return "refused pending Repeat"
        if any(point[0] == tx[0] for one in self.pending() + [tx] for point in one[1]):
            return "refused pending ParentLater"

        def judged(reply):
            if reply.startswith("refused pending "):
                return self.has_form_fault(reply)
            assert reply == f"seen {shown(tx[0])}", reply
            self.wallet = {**self.wallet, "pending": self.wallet.get("pending", []) + [word]}
            return "seen"
        return judged

    @staticmethod
    def has_form_fault(reply):
        assert reply.startswith("refused pending ") and reply.split(" ")[2] not in REPLY_FAULTS, reply
        return "refused transaction"

    def reply(self, line):
        """What is due to a line."""
        words = command_of(line)
        if words is None:
            return "refused command"
        act = {"open": self.open, "turn": self.turn, "commit": self.commit, "close": self.close, "release": self.release,
               "blocks": self.take_blocks, "pending": self.take_pending}[words[0]]
        return act(*words[1:])


def lines_of(script):
    lines = script.split(b"\n")
    return lines[:-1] if lines[-1] == b"" else lines


def stop_of(files, line):
    """The status and the fault line by which the file that a line names ends the run; or None."""
    words = command_of(line)
    if words is None or words[0] not in LIMITS:
        return None
    what, most = LIMITS[words[0]]
    if words[-1] not in files:
        return 4, f"fault read {words[-1]}"
    return (9, f"fault limit {what}") if len(files[words[-1]]) > most else None


def judge(files, fails, status, printed, ends):
    """Goes through a case, whose output fails at these replies; fails where a reply isn't the one that is due."""
    try:
        wallet = json.loads(files["wallet.json"])
        wallet["scripts"]
    except (ValueError, KeyError):
        assert status == 3 and printed.startswith("fault input wallet "), printed
        ends["refused wallet"] += 1
        return
    if len(files["script"]) > 16_777_216:
        assert status == 9 and printed == "fault limit script\n", printed
        ends["script too long"] += 1
        return
    desk, replies, script = Desk(files), printed.splitlines(), lines_of(files["script"])
    for number, line in enumerate(script):
        stop = stop_of(files, line)
        if stop is not None:
            told = [] if number in fails else [stop[1]][number:]
            assert status == stop[0] and replies[number:] == told, f"{stop} is due: {replies[number:]}"
            ends["stopped"] += 1
            return
        if number in fails:
            assert status == 5 and len(replies) == number, f"status {status}, {len(replies)} replies"
            ends["output failed"] += 1
            return
        assert number < len(replies), f"no reply to {line}"
        due = desk.reply(line)
        if isinstance(due, str):
            assert replies[number] == due, f"{due} is due: {replies[number]}"
            ends[due.split(" ")[0]] += 1
        else:
            ends[due(replies[number])] += 1
        points = [point for _, payment in desk.payments for point in payment]
        assert len(points) == len(set(points)) and len(desk.jobs) <= 64, "a coin is committed twice"
    assert status == 0 and len(replies) == len(script), f"status {status}, {len(replies)} replies"
