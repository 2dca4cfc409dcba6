"""What `fund` and `resume` come to, by docs/FORMATS.md alone: the line by which a kept job is refused whose parts are a log that
goes on, and otherwise the report and LOG of the run. The coins and the searches are those of pages/answers.py and
pages/replacements.py, the runs those of pages/runs.py, the checker that of pages/verdicts.py. For tests/mutate.py."""

import json
import re

from pages.answers import searches
from pages.psbt_faults import Fault
from pages.replacements import asked
from pages.runs import Run, TooLong
from pages.verdicts import SECTION, payment, read_report, refusal

OPEN = re.compile(r"section (\d+) (changeless|lean-big|lean-small) ([0-9a-fA-F]{64})\ntokens ([!-~]*)\Z")


def sections_of(log):
    """The closed sections of a log, and the open one of one that goes on: row, stage, digest, letters; a closed one's answer."""
    at, closed = len("fund-log 1\n"), []
    while True:
        one = SECTION.match(log, at)
        if one is None:
            break
        places = None if one[5] == "none" else tuple(map(int, one[5].split(" ")))
        closed.append((int(one[1]), one[2], one[3].lower(), one[4], places))
        at = one.end()
    one = OPEN.match(log, at)
    return closed, one and (int(one[1]), one[2], one[3].lower(), one[4])


def is_rising(places):
    return all(one < other for one, other in zip(places, places[1:]))


def may_stand(problem, said):
    """Whether a search may stand at the saved position."""
    chosen, best, count = said["chosen"], said["best"], len(problem.items)
    if said["next"] >= count or not is_rising(chosen) or any(place >= said["next"] for place in chosen):
        return False
    value, weight, _ = problem.sums(chosen)
    if value >= problem.lo or weight > problem.limit:
        return False
    return not best or (is_rising(best) and best[-1] < count and problem.is_admissible(best))


def refused(said, closed, still_open, request):
    """The line by which the job is refused before it goes on, or None."""
    due, problems = searches(request, [section[4] for section in closed]), []
    for index, section in enumerate([*closed, still_open] if still_open else closed):
        row, stage, problem = next(due, (None, None, None))
        if problem is None or section[:3] != (row, stage, problem.digest()):
            return f"fault saved SavedFalse Section {index}\n"
        problems.append(problem)
    if still_open is None or (said["row"], said["stage"]) != still_open[:2]:
        return f"fault saved SavedFalse Section {len(closed)}\n"
    if not may_stand(problems[-1], said):
        return "fault saved SavedFalse IllFormed\n"
    for index, (problem, section) in enumerate(zip(problems, closed)):
        if section[4] is not None and refusal(problem, "", section[4]) == "AnswerNotAdmissible":
            return f"fault saved SavedFalse Log {index} AnswerNotAdmissible\n"
    return None


def wrong_run(end, run, is_resumed):
    """Whether the run came to what it should, with the log that it should have."""
    is_checked = is_resumed and run.outcome[0] in ("exhausted", "drawn", "none")
    for index, (_, _, problem, letters, places) in enumerate(run.sections if is_checked else ()):
        fault = refusal(problem, letters, places)
        if fault is not None:
            due = f"fault saved SavedFalse Log {index} {fault}\n"
            return None if end.printed.decode() == due else f"by pages/runs.py {due} is due"
    due = run.report()
    if end.status != {"none": 11, "unfinished": 10}.get(run.outcome[0], 0) or end.printed.decode() != due:
        return f"by pages/runs.py this report is due: {due}"
    is_so = end.status == 10 or end.files[end.words[4]].decode() == run.log()
    return None if is_so else f"by pages/runs.py this log is due: {run.log()}"


def wrong_numbers(end, request):
    """Whether a payment whose run isn't made here pays as its request asks."""
    report = read_report(end.printed.decode())
    fault = payment(request, report) if end.status == 0 else None
    return fault and f"by pages/verdicts.py {fault} is due"


def wrong_end(end, job, beside):
    """Whether `fund`, or `resume` of a job that isn't refused for its saved text, its tries or its parts, ended as it should."""
    wallet, blocks, given = (end.given[name] for name in end.words[1:4])
    try:
        request, kept = asked(json.loads(given), json.loads(wallet), blocks), ()
    except Fault as fault:
        return f"fault input {fault} is due"
    if job is not None:
        said, parts = job
        closed, still_open = sections_of(b"".join(parts[number] for number in range(said["parts"])).decode())
        due = refused(said, closed, still_open, request)
        if due is not None:
            beside["forged jobs refused"] += 1
            return None if end.printed.decode() == due else f"by pages/resumes.py {due} is due"
        kept = ((closed, still_open[3], said),)
    try:
        run = Run(request, request.given.get("tries", 100_000), *kept)
    except TooLong:
        beside["runs too long"] += 1
        return wrong_numbers(end, request)
    beside[("replacements" if "bump" in request.given else "runs") + ("" if job is None else " resumed")] += 1
    return wrong_run(end, run, job is not None)
