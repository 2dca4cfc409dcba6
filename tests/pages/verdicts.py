"""Which fault a report with its log has, by the definitions of crates/report_check/specs, done again here. Candidates, pools,
problems and draws are those of chain.py and answers.py. Of the faults of a PSBT, and of the forms of reports and logs, it tells that
there is one."""
import base64
import json
import re

from lib.bitcoin import read_compact, read_tx
from pages.answers import steps
from pages.chain import fee
from pages.replacements import asked

MAX_MONEY = 2_100_000_000_000_000
STAGES = "presets|changeless|lean-big|draw|lean-small"
N = "(0|[1-9][0-9]*)"
FUNDED = re.compile(
    rf"funded (exhausted|partial|drawn|given)\nrow {N}\nstage ({STAGES})\ntries {N}\n((?:in [0-9a-fA-F]{{64}}:{N} {N}\n)+)"
    rf"weight {N}\nvsize {N}\nfee {N}\nwaste (-?{N})\nchange (none|{N})\npsbt ([^\n]+)\n", re.S)
NONE = re.compile(rf"none\ntries {N}\n")
UNFINISHED = re.compile(rf"unfinished\ntries {N}\nrow {N}\nstage ({STAGES})\n")


class Bad(Exception):
    pass


def shortest(data, at):
    start = at
    size, at = read_compact(data, at)
    if at - start != (1 if size < 253 else 3 if size < 65536 else 5 if size < 2 ** 32 else 9):
        raise Bad
    return size, at


def string(data, at):
    size, at = shortest(data, at)
    if at + size > len(data):
        raise Bad
    return data[at:at + size], at + size


def read_map(data, at):
    pairs = {}
    while True:
        key, at = string(data, at)
        if not key:
            return pairs, at
        if key in pairs:
            raise Bad
        pairs[key], at = string(data, at)


def transaction_of(data):
    """Version, inputs with scripts and sequences, outputs, lock time; the legacy form alone, whole."""
    at = 4
    count, at = shortest(data, at)
    inputs, outputs = [], []
    if count == 0:
        raise Bad
    for _ in range(count):
        point = (data[at:at + 32], int.from_bytes(data[at + 32:at + 36], "little"))
        script, at = string(data, at + 36)
        inputs.append((point, script, int.from_bytes(data[at:at + 4], "little")))
        at += 4
    many, at = shortest(data, at)
    for _ in range(many):
        value = int.from_bytes(data[at:at + 8], "little")
        script, at = string(data, at + 8)
        outputs.append((value, script))
    if at + 4 != len(data) or not outputs or sum(value for value, _ in outputs) > MAX_MONEY:
        raise Bad
    return int.from_bytes(data[:4], "little"), inputs, outputs, int.from_bytes(data[at:], "little")


def number(data, size):
    if len(data) != size:
        raise Bad
    return int.from_bytes(data, "little")


def counted(data):
    count, end = shortest(data, 0)
    if end != len(data):
        raise Bad
    return count


def without_key_data(pairs, kinds):
    if any(key[0] in kinds and len(key) > 1 for key in pairs):
        raise Bad


def spent_of(pairs, point):
    """What an input's map tells of what it spends: the whole transaction's outputs, and the output."""
    without_key_data(pairs, (0, 1))
    whole = paid = None
    if b"\x00" in pairs:
        parent = read_tx(pairs[b"\x00"])
        if parent[3] != len(pairs[b"\x00"]) or parent[0] != point[0] or point[1] >= len(parent[2]):
            raise Bad
        whole = parent[2]
    if b"\x01" in pairs:
        value = pairs[b"\x01"]
        script, end = string(value, 8)
        if end != len(value) or int.from_bytes(value[:8], "little") > MAX_MONEY:
            raise Bad
        paid = (int.from_bytes(value[:8], "little"), script)
    return whole, paid


def read_whole(data, pairs, at):
    """A PSBT of version 0 behind its global map (BIP 174), and the place behind it."""
    tx = transaction_of(pairs[b"\x00"])
    if any(script for _, script, _ in tx[1]):
        raise Bad
    shown = []
    for point, _, _ in tx[1]:
        pairs, at = read_map(data, at)
        shown.append(spent_of(pairs, point))
    for _ in tx[2]:
        _, at = read_map(data, at)
    return tx, shown, at


def read_fields(data, pairs, at):
    """A PSBT of version 2 behind its global map (BIP 370), and the place behind it."""
    without_key_data(pairs, (2, 3, 4, 5, 0xFB))
    if any(key[0] == 0 for key in pairs):
        raise Bad
    inputs, outputs, shown = [], [], []
    for _ in range(counted(pairs[b"\x04"])):
        own, at = read_map(data, at)
        without_key_data(own, (0x0E, 0x0F, 0x10))
        if any(key[0] in (0x11, 0x12) for key in own) or len(own[b"\x0e"]) != 32:
            raise Bad
        point = own[b"\x0e"], number(own[b"\x0f"], 4)
        inputs.append((point, b"", number(own.get(b"\x10", b"\xff" * 4), 4)))
        shown.append(spent_of(own, point))
    for _ in range(counted(pairs[b"\x05"])):
        own, at = read_map(data, at)
        without_key_data(own, (3, 4))
        outputs.append((number(own[b"\x03"], 8), own[b"\x04"]))
    if not inputs or not outputs or sum(value for value, _ in outputs) > MAX_MONEY:
        raise Bad
    tx = number(pairs[b"\x02"], 4), inputs, outputs, number(pairs.get(b"\x03", bytes(4)), 4)
    return tx, shown, at


def psbt_of(text):
    """The transaction, and for each input the whole transaction's outputs and the output; None where it isn't readable."""
    try:
        data = base64.b64decode(text, validate=True)
        if base64.b64encode(data) != text or data[:5] != b"psbt\xff":
            raise Bad
        pairs, at = read_map(data, 5)
        version = number(pairs.get(b"\xfb", bytes(4)), 4)
        if version not in (0, 2):
            raise Bad
        tx, shown, at = (read_fields if version == 2 else read_whole)(data, pairs, at)
        if at != len(data):
            raise Bad
        return tx, shown
    except (Bad, KeyError, IndexError, ValueError):
        return None


# ---- the payment: specs/Payment.antt


def meets(row, coin):
    _, own, foreign, ancestors, descendants, _, unsafe = row
    return (coin["depth"] >= (own if coin["mine"] else foreign) and coin["ancestors"] <= ancestors
            and coin["descendants"] <= descendants and (coin["safe"] or unsafe))


def payment(request, report):
    """None where the report keeps its rules, or the first fault."""
    read = psbt_of(report["psbt"])
    if read is None:
        return "Psbt"
    (version, inputs, outputs, locktime), shown = read
    rows = [row for row in request.rows() if row[0] == report["row"]]
    coins = []
    for point, _, _ in inputs:
        found = [coin for coin in request.presets if coin["point"] == point]
        found += [coin for coin in request.candidates if coin["point"] == point and rows and meets(rows[0], coin)]
        if not found:
            return f"Coin {point[0][::-1].hex()}:{point[1]}"
        coins.append(found[0])
    return None if pays(request, report, rows, version, inputs, outputs, locktime, shown, coins) else "Pays"


def pays(request, report, rows, version, inputs, outputs, locktime, shown, coins):
    if report["row"] != 0 and not rows:
        return False
    points = [coin["point"] for coin in coins]
    if any(one >= other for one, other in zip(points, points[1:])) or not all(coin["point"] in points for coin in request.presets):
        return False
    at_hand = len(request.presets) + (sum(map(len, request.pool(rows[0]))) if rows else 0)
    base, _ = request.terms(at_hand)
    change = report["change"]
    due = [(amount, to) for to, amount in request.recipients] + ([] if change is None else [(change, request.change)])
    sequence = 0xFFFFFFFD if request.given.get("replaceable", True) else 0xFFFFFFFE
    if version != 2 or locktime != request.given.get("locktime", 0) or outputs != due or any(one[2] != sequence for one in inputs):
        return False
    worth = sum(coin["value"] for coin in coins)
    fees = sum(map(request.charge, coins))
    needed = request.paid + fee(request.rate, -(-base // 4)) + request.burden
    needed += fees + (0 if request.presets else max(0, 1 - needed))
    if change is None:
        if not (needed <= worth and worth + 1 <= needed + request.change_fee + request.least):
            return False
    elif not (worth == needed + change + request.change_fee and change >= request.least):
        return False
    weight = base + sum(coin["weight"] for coin in coins) + (0 if change is None else 4 * request.change_size)
    cost = sum(map(request.cost, coins))
    waste = cost + (worth - needed if change is None else request.change_fee + request.change_spend)
    lines = [(coin["point"], coin["value"]) for coin in coins]
    given = (report["weight"], report["vsize"], report["fee"], report["waste"], report["coins"])
    if weight > 400_000 or given != (weight, -(-weight // 4), worth - sum(value for value, _ in outputs), waste, lines):
        return False
    for coin, (whole, paid) in zip(coins, shown):
        own = (coin["value"], coin["script"])
        if (whole is None and paid is None) or paid not in (None, own) or (whole is not None and whole[coin["point"][1]] != own):
            return False
    return True


# ---- the log: specs/DueSections.antt, Proved.antt, Answer.antt


SECTION = re.compile(rf"section {N} (changeless|lean-big|lean-small) ([0-9a-fA-F]{{64}})\ntokens ([!-~]+)\nanswer (none|{N}(?: {N})*)\n")
OPEN = re.compile(rf"section {N} (changeless|lean-big|lean-small) ([0-9a-fA-F]{{64}})\ntokens [!-~]*")


def sections_in(log):
    """The sections, or the fault of the form: its place where the log is open, otherwise only that there is one."""
    if not log.startswith("fund-log 1\n"):
        return None, "LogForm"
    at, sections = 11, []
    while True:
        one = SECTION.match(log, at)
        if one is None:
            break
        places = None if one[5] == "none" else tuple(map(int, one[5].split(" ")))
        if int(one[1]) > 255 or (places and max(places) > 0xFFFFFFFF):
            return None, "LogForm"
        sections.append((int(one[1]), one[2], one[3].lower(), one[4], places))
        at = one.end()
    if log[at:] == "end\n":
        return sections, None
    one = OPEN.fullmatch(log, at)
    is_open = one is not None and int(one[1]) <= 255
    return None, f"LogForm {len(log)}" if is_open else "LogForm"


def is_named(step, section):
    return section[:3] == (step[0], step[1], step[2].digest())


def first_wrong(due, sections, none_missing=False):
    """The index at which they part, or None."""
    for index, section in enumerate(sections):
        if index >= len(due) or not is_named(due[index], section):
            return index
    return len(sections) if len(sections) < len(due) and not none_missing else None


def section_wrong(columns, report, sections):
    searches = [step for column in columns for step in column if step[1] != "draw"]
    mark = report.get("mark")
    if mark is None:
        return first_wrong(searches, sections)
    if mark == "given":
        return first_wrong([], sections)
    if mark == "partial":
        return first_wrong(searches[:-1], sections, True) if searches else 0
    due = []
    for place, column in enumerate(columns):
        if any(step[:2] == (report["row"], report["stage"]) for step in column):
            due = [step for one in columns[:place + 1] for step in one if step[1] != "draw"]
            break
    return first_wrong(due, sections)


def refusal(problem, letters, answer):
    """The first fault of a section, or None: by nodes and the table of letters."""
    if answer is not None and not (answer and all(a < b for a, b in zip(answer, answer[1:])) and answer[-1] < len(problem.items)
                                   and problem.is_admissible(answer)):
        return "AnswerNotAdmissible"
    count, waiting, met = len(problem.items), [((), 0)], False
    for place, letter in enumerate(letters):
        if letter not in "ITSOHMWLFA":
            return f"UnknownToken {place}"
        if not waiting:
            return f"TooLong {place}"
        chosen, at = waiting.pop()
        if letter == "I" and at < count:
            waiting += [(chosen, at + 1), (chosen + (at,), at + 1)]
        elif letter == "T" and 0 < at < count and at - 1 not in chosen and problem.are_twins(at - 1, at):
            waiting.append((chosen, next((one for one in range(at, count) if not problem.are_twins(at - 1, one)), count)))
        elif letter in "IT" or not problem.closes(letter, chosen, at, answer, met):
            better = letter == "A" and problem.sums(chosen)[0] >= problem.lo
            return f"BetterMet {place}" if better else f"ReasonFalse {place}"
        met = met or (letter == "A" and chosen == answer)
    if waiting:
        return "Open"
    return None if answer is None or met else "AnswerNotMet"


def named_answer(request, columns, sections, seed):
    """Mark, row, stage and coins by the sections' answers, the draws and the rule of auto; `none`."""
    told = {section[:2]: section[4] for section in sections}
    for column in columns:
        found = []
        for row, stage, problem, groups in column:
            if stage == "draw":
                places = problem.drawn(seed)
            elif (row, stage) in told:
                places = told[row, stage]
            else:
                return "untold"
            if places is not None:
                found.append((problem.waste(places), -sum(len(groups[one]) for one in places), row, stage, groups, places))
        if found:
            _, _, row, stage, groups, places = min(found, key=lambda one: one[:2])
            points = sorted(coin["point"] for coin in request.presets + [coin for one in places for coin in groups[one]])
            return "drawn" if stage == "draw" else "exhausted", row, stage, points
    alone = request.alone()
    return ("none",) if alone is None else alone[:4]


def log_verdict(request, report, log):
    sections, fault = sections_in(log)
    if fault:
        return fault
    columns = [] if request.alone() is not None else [[(row, stage, problem, groups) for stage, problem in column] for row, groups, column in steps(request)]
    wrong = section_wrong(columns, report, sections)
    if wrong is not None:
        return f"Section {wrong}"
    searches = [step for column in columns for step in column if step[1] != "draw"]
    for index, section in enumerate(sections):
        why = refusal(searches[index][2], section[3], section[4])
        if why:
            return f"Log {index} {why}"
    if report.get("mark") == "partial":
        return None
    if report["tries"] != sum(section[3].count("I") for section in sections):
        return f"Report {report['place']}"
    seed = bytes.fromhex(request.given.get("seed", "00" * 32))
    named = named_answer(request, columns, sections, seed)
    said = ("none",) if "mark" not in report else (report["mark"], report["row"], report["stage"], [point for point, _ in report["coins"]])
    return None if named == said else "Answer"


# ---- reports


def read_report(text):
    one = FUNDED.fullmatch(text)
    if one:
        coins = [(bytes.fromhex(line[3:67])[::-1], *map(int, line[68:].split(" "))) for line in one[5].splitlines()]
        change = None if one[13] == "none" else int(one[13])
        numbers = [int(one[at]) for at in (2, 4, 8, 9, 10)]
        waste = int(one[11])
        numbers += [coin[2] for coin in coins] + ([] if change is None else [change])
        if int(one[2]) > 255 or max(numbers) >= 2 ** 64 or not -2 ** 127 <= waste < 2 ** 127 or any(coin[1] > 0xFFFFFFFF for coin in coins):
            return None
        if one[11].startswith("-0"):
            return None
        return {"mark": one[1], "row": int(one[2]), "stage": one[3], "tries": int(one[4]), "place": one.start(4) - 6,
                "coins": [((txid, index), value) for txid, index, value in coins], "weight": int(one[8]), "vsize": int(one[9]),
                "fee": int(one[10]), "waste": waste, "change": change, "psbt": one[one.re.groups].encode("latin-1")}
    one = NONE.fullmatch(text)
    if one:
        return {"tries": int(one[1]), "place": 5} if int(one[1]) < 2 ** 64 else None
    one = UNFINISHED.fullmatch(text)
    return {"unfinished": True} if one and int(one[1]) < 2 ** 64 and int(one[2]) <= 255 else None


def verdict(files, text):
    """The first fault of a report of this text with these files, or None where it is accepted."""
    wallet, given = json.loads(files["wallet.json"]), json.loads(files["request.json"])
    request = asked(given, wallet, files.get("blocks.dat", b""))
    report = read_report(text)
    if report is None:
        return "Report"
    if "unfinished" in report:
        return None
    if "log" not in files:
        return "no log"
    fault = payment(request, report) if "mark" in report else None
    return fault or log_verdict(request, report, files["log"].decode("latin-1"))
