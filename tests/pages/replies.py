"""What of a desk's replies can be told without its coins, by docs/FORMATS.md alone: one reply to each line, in the form of that
line; which jobs are open and how far they came; that a coin is committed once. For tests/mutate.py and tests/faults.py."""

from lib.bitcoin import shown
from pages.desk import MOST, Desk, command_of, lines_of
from pages.printed import reply_form
from pages.verdicts import psbt_of


class Open:
    """The open jobs with their tries and their last reply, and the coins of live commitments by their transaction."""

    def __init__(self):
        self.jobs, self.payments = {}, {}

    def wrong(self, words, reply):
        """What is wrong with a reply to a line of these words; or None, and then the desk has gone on."""
        said = reply.split(b" ")
        name = words[1]
        if words[0] == b"open":
            due = b"taken-name" if name in self.jobs else b"full" if len(self.jobs) == 64 else None
            if (said[0] in (b"taken-name", b"full") or due is not None) and said[0] != due:
                return f"{due} is due"
            if said[0] == b"opened":
                self.jobs[name] = (0, b"")
        elif words[0] == b"release":
            return self.wrong_release(name, said)
        elif words[0] in (b"turn", b"commit", b"close"):
            if (said[0] == b"no-job") != (name not in self.jobs):
                return "a job is open, or none is"
            if name in self.jobs:
                return {b"turn": self.wrong_turn, b"commit": self.wrong_commit, b"close": self.wrong_close}[words[0]](words, reply)
        return None

    def wrong_close(self, words, _):
        del self.jobs[words[1]]
        return None

    def wrong_release(self, name, said):
        was = self.payments.pop(name.lower(), None) is not None
        return None if (said[0] == b"released") == was else "a payment is committed, or none is"

    def wrong_turn(self, words, reply):
        made, last = self.jobs[words[1]]
        said, budget = reply.split(b" "), min(int(words[2]), MOST - made)
        if last.startswith((b"none", b"funded")):
            return None if reply == last else "another reply than that of a finished job"
        if (said[0] == b"spent") != (budget == 0):
            return "spent, or not spent"
        if said[0] == b"spent":
            return None
        tries = int(said[-1])
        used_up = said[0] == b"unfinished" or said[2] == b"partial"
        if not made <= tries <= made + budget or (used_up and tries != made + budget):
            return f"{made} tries were made, and {budget} are due"
        self.jobs[words[1]] = (tries, reply)
        return None

    def wrong_commit(self, words, reply):
        said, last = reply.split(b" "), self.jobs[words[1]][1]
        if (said[0] == b"not-funded") != (not last.startswith(b"funded")):
            return "a payment was found, or none was"
        if said[0] != b"committed":
            return None
        read = psbt_of(said[3])
        if read is None or shown(Desk.txid(read[0])).encode() != said[2]:
            return "no PSBT, or another txid than its own"
        points = {one[0] for one in read[0][1]}
        if any(points & other for other in self.payments.values()):
            return "a coin is committed twice"
        del self.jobs[words[1]]
        self.payments[said[2]] = points
        return None


def wrong_replies(script, status, printed, stop_of):
    """What is wrong with all that a desk printed, whose wallet and blocks are in order; or None. `stop_of` gives the status and
    the fault line by which the file of a line ends the run, or None."""
    replies, state = printed.split(b"\n")[:-1], Open()
    if printed and not printed.endswith(b"\n"):
        return "the last line has no line feed"
    for number, line in enumerate(lines_of(script)):
        words = line.split(b" ") if command_of(line) is not None else None
        stop = stop_of(words) if words is not None else None
        if stop is not None:
            due = [] if number else [stop[1]]
            return None if (status, replies[number:]) == (stop[0], due) else f"{stop} is due to line {number}"
        if number >= len(replies):
            return f"no reply to line {number}"
        if not reply_form(words).fullmatch(replies[number]):
            return f"another form than that of a reply to {line[:80]}: {replies[number][:200]}"
        fault = state.wrong(words, replies[number]) if words is not None else None
        if fault is not None:
            return f"line {number}, {line[:80]}, {replies[number][:200]}: {fault}"
    return None if status == 0 and len(replies) == len(lines_of(script)) else f"status {status}, or too many replies"
