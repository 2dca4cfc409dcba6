"""Whether a run of the program ended as docs/FORMATS.md says, by what it was given alone; and by what another command says of the
same files. For tests/mutate.py, whose head has the rules."""

import collections
import json
import os

from harness.by_pages import (wrong_beside_funding, wrong_desk, wrong_first_job, wrong_listing, wrong_payment, wrong_refusal, wrong_settling,
                      wrong_verdict)
from harness.cases import FUND, THREE, with_members
from pages.kept_jobs import MOST_TRIES, digest_of, gone_on, not_saved, read_saved, refusal_of
from pages.printed import FORMS, LOG, OPEN_LOG, WIDE_LOG, is_command
from pages.replies import wrong_replies
from pages.resumes import wrong_end
from harness.running import OLD_LOG
from pages.text_places import sections_before_fault

TRIES_A_SECOND = 1_000_000
MOST_STEPS = 60
LIMITS = {b"wallet": 16_777_216, b"blocks": 1_073_741_824, b"request": 1_048_576, b"script": 16_777_216, b"report": 67_108_864,
          b"log": 67_108_864, b"tx": 1_048_576}
AT = {"coins": (b"wallet", b"blocks"), "fund": (b"wallet", b"blocks", b"request"), "resume": (b"wallet", b"blocks", b"request"),
      "check": (b"wallet", b"blocks", b"request", b"report", b"log"), "desk": (b"wallet", b"blocks", b"script"),
      "settle": (b"wallet", b"request", b"report", b"tx")}
AT.update({verb: AT["fund"] for verb in ("wide", "share", "sweep")})
LOGS = {"fund": LOG, "resume": LOG, "share": LOG, "wide": WIDE_LOG}
CHAIN = (b"fault input wallet ", b"fault input blocks ", b"fault input book ", b"fault limit wallet\n", b"fault limit blocks\n",
         b"fault limit coins\n")


def tries_of(end):
    """How many tries the run may make."""
    try:
        if end.words[0] in LOGS:
            return json.loads(end.given[end.words[3]]).get("tries", 100_000)
        if end.words[0] == "desk":
            turns = [line.split(b" ") for line in end.given[end.words[3]].splitlines() if line.startswith(b"turn ")]
            return sum(int(turn[-1]) for turn in turns if len(turn) == 3 and turn[2].isdigit() and len(turn[2]) < 9)
    except (ValueError, KeyError, IndexError, AttributeError):
        pass
    return 100_000


def log_refusal_of(job):
    """The line by which a job is refused whose counted parts are no log that goes on; or None."""
    said, _ = read_saved(job[0])
    sections = sections_before_fault(b"".join(job[1][number] for number in range(said["parts"])))
    return None if sections is None else b"fault saved SavedFalse Section %d\n" % sections


class Judge:
    """Judges ends; `place` is where another command is run beside one that ended, and a run without tries takes so many seconds at
    most."""

    def __init__(self, place, seconds):
        self.place, self.seconds, self.beside = place, seconds, collections.Counter()

    # ---- by the end alone

    def wrong(self, end):
        """What is wrong with the end of a run, or None."""
        tries = tries_of(end)
        if end.told:
            return "something on the standard error"
        if isinstance(tries, int) and end.seconds > self.seconds + max(0, tries) / TRIES_A_SECOND:
            return f"it took {end.seconds:.2f} s"
        if (end.status == 2) != (not is_command(end.words)):
            return "the words are a command, or none"
        if end.status == 2:
            return None if end.printed == b"fault usage\n" and self.is_untouched(end) else "not as with words that are no command"
        if end.words[0] == "desk" and (end.status == 0 or not end.printed.startswith(b"fault ")):
            return self.wrong_desk(end) or (None if self.is_untouched(end) else "a file or a job changed")
        form = FORMS[end.words[0]].get(end.status)
        if form is None:
            return f"the status {end.status} is none of this command"
        if not form.fullmatch(end.printed):
            return f"a text of another form than that of the status {end.status}"
        return self.wrong_files(end) or self.wrong_left(end) or self.wrong_job(end)

    def wrong_desk(self, end):
        def stop_of(words):
            if words[0] not in (b"open", b"blocks"):
                return None
            path = os.path.join(os.fsencode(self.place.folder), words[-1])
            if not os.path.isfile(path):
                return 4, b"fault read " + words[-1]
            what, limit = {b"open": (b"request", 1_048_576), b"blocks": (b"blocks", 67_108_864)}[words[0]]
            return (9, b"fault limit " + what) if os.path.getsize(path) > limit else None

        return wrong_replies(end.given[end.words[3]], end.status, end.printed, stop_of)

    def wrong_files(self, end):
        """By the files that aren't there, or are longer than their limit."""
        said = end.printed.removesuffix(b"\n").split(b" ", 2)
        if end.words[0] == "desk":
            return None
        if end.status == 4 and (said[2].decode() not in end.words[1:] or said[2].decode() in end.given):
            return "this file is there"
        for name, what in zip(end.words[1:], AT.get(end.words[0], ())):
            is_told = end.status == 9 and said[2] == what
            if what == b"log" and end.words[0] != "check":
                continue
            if name not in end.given:
                return None if end.status in (3, 4, 9, 12) or end.words[0] == "check" else "a file that isn't there was read"
            if len(end.given[name]) > LIMITS[what]:
                return None if is_told or end.status in (3, 9) else f"{what} is too long"
            if is_told:
                return f"{what} isn't too long"
        return None

    @staticmethod
    def is_untouched(end):
        return end.files == end.given and end.jobs == end.kept

    def wrong_left(self, end):
        """By the files that are left."""
        if end.words[0] not in LOGS or end.status not in (0, 11):
            return None if end.files == end.given else "a file changed"
        log = end.words[4]
        if {**end.files, log: b""} != {**end.given, log: b""}:
            return "another file than LOG changed"
        return None if LOGS[end.words[0]].fullmatch(end.files[log]) else "LOG is no whole log"

    def wrong_job(self, end):
        """By the jobs that are kept."""
        (before, was_sound), (after, is_sound) = end.kept, end.jobs
        job = end.words[5] if len(end.words) == 6 and end.words[0] in ("fund", "resume") else None
        if before is None or not was_sound:
            self.beside["job files of other tables" if was_sound else "unsound job files"] += 1
            needs = end.status == 10 or (end.words[0] == "resume" and end.status not in (3, 4, 6, 9))
            return "a job file that is unsound, or of other tables, was read" if job is not None and needs else None
        if after is None or not is_sound:
            return "the job file was sound, and isn't any more"
        if job is None or end.status != 10:
            if after != before:
                return "a job changed"
        elif {**after, job: None} != {**before, job: None}:
            return "another job changed"
        files = [end.given.get(name, b"") for name in end.words[1:4]]
        if end.words[0] == "resume":
            return self.wrong_resumed(end, before.get(job), after.get(job), files)
        if end.status == 10 and job is not None:
            return self.wrong_saved(after[job], end.printed, files)
        return None

    def wrong_resumed(self, end, before, after, files):
        if end.status in (3, 4, 6) or end.printed.startswith(CHAIN + (b"fault limit request\n", b"fault limit groups\n")):
            return None
        due = refusal_of(before, files)
        if due is None:
            due = log_refusal_of(before)
        if due is not None:
            return None if end.printed == due else f"{due} is due"
        if end.printed.startswith((b"fault saved NoJob", b"fault saved SavedForm", b"fault saved JobElse", b"fault limit",
                                   b"fault saved SavedFalse Part", b"funded given")):
            return "the job isn't to be refused so"
        fault = wrong_end(end, (read_saved(before[0])[0], before[1]), self.beside)
        return fault or (gone_on(before, after, end.printed) if end.status == 10 else None)

    @staticmethod
    def wrong_saved(job, report, files):
        """By a job that an unfinished `fund` left: its saved text and one part, the log so far."""
        said, place = read_saved(job[0])
        if said is None:
            return f"the saved text leaves its form at {place}"
        if [number for number in job[1] if number >= 0] != [0] or not OPEN_LOG.fullmatch(job[1][0]):
            return "the one part isn't the log so far"
        if job[1][0].count(b"I", job[1][0].find(b"tokens")) < said["tries"]:
            return "the log has fewer tries than the saved text"
        return not_saved(job, digest_of(files), 1, report)

    # ---- by another command

    def wrong_beside(self, end, also):
        """What is wrong by what other scripts and other commands say of the same files, or None."""
        if end.status == 2 or end.words[0] == "work":
            return None
        if end.words[0] == "settle":
            return wrong_settling(end, self.beside)
        fault = wrong_refusal(end, self.beside)
        if fault is None and end.words[0] in ("wide", "share", "sweep"):
            fault = wrong_beside_funding(end, self.beside)
        if fault is not None:
            return fault
        if end.words[0] == "coins" and end.status == 0:
            return wrong_listing(end, self.beside)
        if end.words[0] == "check" and end.status in (0, 12) and end.words[1:] == [*THREE, "report", "log"]:
            return wrong_verdict(end, self.beside)
        if end.words[0] == "desk" and (end.status == 0 or not end.printed.startswith(b"fault ")):
            return wrong_desk(end, self.beside) or wrong_first_job(end, self.place, self.beside)
        if end.words[0] == "fund" and end.status in (0, 10, 11):
            fault = wrong_end(end, None, self.beside) or (wrong_payment(end, self.beside) if also else None)
            if fault is not None:
                return fault
        if end.words[0] in ("fund", "resume") and end.words[4] == "LOG":
            if end.status in (0, 11):
                return self.wrong_checked(end) or (self.wrong_funded(end) if end.words[0] == "resume" else None)
            if end.status == 10 and end.words[0] == "fund" and len(end.words) == 6:
                return self.wrong_in_steps(end)
            if end.status == 10 and also:
                said = self.check(end, end.printed, OLD_LOG)
                return None if said.printed == b"accepted\nunfinished\n" else f"`check` says {said.printed}"
        return self.wrong_listed(end) if also and end.words[0] != "coins" and end.status not in (4, 6) else None

    def check(self, end, report, log):
        self.beside["checked"] += 1
        names = end.words[1:4]
        files = {name: end.given[name] for name in names if name in end.given}
        return self.place.run(["check", *names, "a report", "a log"], {**files, "a report": report, "a log": log})

    def wrong_checked(self, end):
        said = self.check(end, end.printed, end.files["LOG"])
        first = end.printed.split(b"\n")[0]
        if said.printed == b"accepted\n" + first + b"\n":
            return None
        if end.words[0] == "resume":
            forged_log = first == b"funded partial" and said.printed.startswith((b"fault check Section ", b"fault check Log "))
            forged_tries = first != b"funded partial" and said.printed == b"fault check Report %d\n" % end.printed.find(b"tries ")
            if forged_log or forged_tries:
                self.beside["forged " + ("logs" if forged_log else "tries")] += 1
                return None
        return f"`check` says {said.printed}"

    def wrong_funded(self, end):
        """By `fund` of the same files with tries enough: the same report but for its tries."""
        if end.printed.startswith(b"funded partial"):
            return None
        files = with_members({name: end.given[at] for name, at in zip(THREE, end.words[1:4])}, tries=10_000_000)
        fresh = self.place.run(FUND, files)
        if fresh.status == 10 or fresh.printed.startswith(b"funded partial"):
            self.beside["unfinished by all tries"] += 1
            return None
        self.beside["funded anew"] += 1
        texts = [[line for line in text.split(b"\n") if not line.startswith(b"tries ")] for text in (end.printed, fresh.printed)]
        return None if texts[0] == texts[1] else f"`fund` says {fresh.printed}"

    def wrong_in_steps(self, end):
        """By going on with the job that was kept until it ends: as one `fund` with all these tries does."""
        tries = json.loads(end.given[end.words[3]]).get("tries", 100_000)
        status, steps = 10, 1
        while status == 10 and steps < MOST_STEPS and tries * MOST_STEPS < MOST_TRIES:
            status, _ = self.place.spawn(["resume", *end.words[1:]])
            steps += 1
        if status == 10:
            return None
        left = self.place.left()
        files = with_members({name: end.given[at] for name, at in zip(THREE, end.words[1:4])}, tries=steps * tries)
        whole = self.place.run(FUND, files)
        self.beside["jobs in steps"] += 1
        at_last, at_once = (status, left["said"], left["LOG"]), (whole.status, whole.printed, whole.files["LOG"])
        return None if at_last == at_once else f"in {steps} steps {at_last}, at once {at_once}"

    def wrong_listed(self, end):
        """By `coins` of the same wallet and blocks: the same refusal, or none."""
        names = end.words[1:3]
        if any(name not in end.given for name in names):
            return None
        self.beside["listed"] += 1
        said = self.place.run(["coins", *names], {name: end.given[name] for name in names})
        if said.status == 0:
            return "`coins` lists them" if end.printed.startswith(CHAIN) else None
        return None if said.printed == end.printed else f"`coins` says {said.printed}"
