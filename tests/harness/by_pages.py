"""What the modules of pages/ say of a run that tests/mutate.py made: input_faults.py of the files, replacements.py of what keeps a
payment from being made, answers.py of listings and payments, verdicts.py with text_places.py and psbt_faults.py of reports, desk.py
of desks, further.py of `wide`, `share` and `sweep`, settlings.py of `settle`; and whether the first job of a desk is funded as
`fund` funds it. None where they agree, or have nothing to say."""

import collections
import json
import re

from harness.cases import FUND, THREE, with_members
from lib.bitcoin import shown_point
from pages import desk, further, input_faults, psbt_faults, settlings, text_places
from pages.answers import judge
from pages.chain import Chain
from pages.desk import command_of, lines_of
from pages.replacements import asked
from pages.verdicts import verdict

# what these scripts stumble over
BEYOND = (KeyError, IndexError, ValueError, TypeError, AttributeError, StopIteration, RecursionError, ZeroDivisionError)
# replies after which a job may see other coins than the files have
TURNING = (b"committed", b"tip", b"seen", b"refused", b"released")


def refusal_of(end):
    """The line by which wallet, blocks, coins, request, replacement or plan are refused, or None."""
    wallet, blocks = (end.given[name] for name in end.words[1:3])
    fault = input_faults.fault_of(input_faults.read_wallet, wallet)
    if fault is not None:
        return f"fault input wallet {fault}\n"
    known = json.loads(wallet)
    fault = input_faults.fault_of(input_faults.read_blocks, blocks, bytes.fromhex(known["hash"])[::-1], known["height"])
    if fault is not None:
        return f"fault input blocks {fault}\n"
    repeated = Chain(known, blocks).repeated
    if repeated:
        return f"fault input book RepeatCoin {shown_point(repeated[0])}\n"
    if end.words[0] in ("fund", "resume", "check"):
        given = end.given[end.words[3]]
        fault = input_faults.fault_of(input_faults.read_request, given)
        if fault is not None:
            return f"fault input request {fault}\n"
        fault = input_faults.fault_of(asked, json.loads(given), known, blocks)
        return None if fault is None else f"fault input {fault}\n"
    if end.words[0] in further.COMMANDS:
        fault = input_faults.fault_of(input_faults.read_request, end.given[end.words[3]])
        return None if fault is None else f"fault input request {fault}\n"
    return None


def wrong_refusal(end, beside):
    """Whether the first fault of the files is the one that is due, and there is one only where one is due."""
    if end.words[0] == "work" or end.status in (2, 4) or end.printed.startswith(b"fault limit "):
        return None
    try:
        due = refusal_of(end)
    except KeyError:
        return None
    if due is None and end.words[0] in further.COMMANDS and end.printed.startswith(b"fault input plan "):
        return None
    beside["refusals" if due else "files in order"] += 1
    is_so = end.printed.decode() == due if due else not end.printed.startswith(b"fault input ")
    return None if is_so else f"{due} is due"


def wrong_beside_funding(end, beside):
    """Of a `wide`, a `share` or a `sweep` whose files are in order: whether it ended as is due, with the report and the log."""
    is_judged = end.status in (0, 10, 11) or end.printed.startswith(b"fault input plan ") or end.printed == b"fault limit groups\n"
    if not is_judged:
        return None
    log = end.files[end.words[4]].decode() if end.status in (0, 11) and len(end.words) == 5 else None
    try:
        kind = further.judge(end.words[0], {name: end.given[at] for name, at in zip(THREE, end.words[1:4])}, end.status,
                             end.printed.decode(), log)
        beside[f"{end.words[0]}: {kind}"] += 1
    except AssertionError as wrong:
        return f"by pages/further.py {wrong}"
    except BEYOND:
        beside[f"{end.words[0]} not judged"] += 1
    return None


def wrong_settling(end, beside):
    """Of a `settle`: whether it ended as is due."""
    names = ("wallet.json", "request.json", "report", "tx")
    files = {name: end.given[at] for name, at in zip(names, end.words[1:5]) if at in end.given}
    try:
        beside[f"settle: {settlings.judge(files, end.status, end.printed.decode())}"] += 1
    except AssertionError as wrong:
        return f"by pages/settlings.py {wrong}"
    except BEYOND:
        beside["settle not judged"] += 1
    return None


def wrong_listing(end, beside):
    """Of a `coins` that wasn't refused: whether it lists what the wallet and the blocks come to."""
    data, blocks = (end.given[name] for name in end.words[1:3])
    wallet = json.loads(data)
    last, height = input_faults.read_blocks(blocks, bytes.fromhex(wallet["hash"])[::-1], wallet["height"])
    chain, due = Chain(wallet, blocks), f"tip {height} {last[::-1].hex()}\n"
    due += "".join(f"payment {tx.txid[::-1].hex()} {state}\n" for tx, state in zip(chain.pending, chain.state))
    for coin in chain.candidates:
        own, safe = "mine" if coin["mine"] else "foreign", "safe" if coin["safe"] else "unsafe"
        due += f"coin {shown_point(coin['point'])} {coin['value']} {coin['depth']} {own} {safe} "
        due += f"{coin['ancestors']} {coin['descendants']}\n"
    beside["listings"] += 1
    return None if end.printed.decode() == due else f"by harness/by_pages.py this listing is due: {due}"


def wrong_payment(end, beside):
    """Of a `fund` that wasn't refused: whether it ended with the answer that is due, and with a log of it."""
    try:
        wallet, blocks, given = (end.given[name] for name in end.words[1:4])
        log = end.files[end.words[4]].decode() if end.status != 10 else None
        kind = judge(asked(json.loads(given), json.loads(wallet), blocks), end.status, end.printed.decode(), log)
        beside[f"judged {kind}"] += 1
    except AssertionError as wrong:
        return f"by pages/answers.py {wrong}"
    except BEYOND:
        beside["payments not judged"] += 1
    return None


def wrong_verdict(end, beside):
    """Of a `check`: whether its verdict is the one that is due."""
    try:
        got = verdict(end.given, end.given["report"].decode("latin-1"))
    except (AssertionError, *BEYOND):
        beside["reports not judged"] += 1
        return None
    if got in ("Report", "LogForm"):
        form, name = (text_places.report, "report") if got == "Report" else (text_places.log, "log")
        got = f"{got} {text_places.fault_of(form, end.given[name])}"
    if got == "Psbt":
        psbt = re.search(rb"(?<=\npsbt )[^\n]+", end.given["report"])[0]
        got = f"Psbt {psbt_faults.fault_of(psbt)}"
    due = None if end.status == 0 else end.printed.decode().removeprefix("fault check ").removesuffix("\n")
    if got == due:
        beside["verdicts"] += 1
        return None
    return f"by pages/verdicts.py {got} is due"


def wrong_desk(end, beside):
    """Of a desk whose wallet and blocks are in order: whether each reply is the one that is due. pages/desk.py knows no plan that
    is refused for its groups or its sum."""
    if b" TooMany " in end.printed or b" Total " in end.printed:
        return None
    try:
        desk.judge({**end.given, "script": end.given[end.words[3]]}, [], end.status, end.printed.decode(), collections.Counter())
        beside["desks"] += 1
    except AssertionError as wrong:
        return f"by pages/desk.py {wrong}"
    except BEYOND:
        beside["desks not judged"] += 1
    return None


def first_job(end):
    """The file, the last reply to a turn and the PSBT of the job that a desk opened first, before any coin came or went."""
    name = file = last = psbt = None
    for line, reply in zip(lines_of(end.given[end.words[3]]), end.printed.split(b"\n")):
        said, words = reply.split(b" "), line.split(b" ")
        if command_of(line) is None:
            continue
        if name is None and words[0] == b"open" and said[0] == b"opened":
            name, file = words[1], words[2].decode()
        elif name is not None and words[0] == b"turn" and words[1] == name:
            last = said
        elif name is not None and words[1] == name and said[0] in (b"committed", b"closed"):
            return file, last, said[3] if said[0] == b"committed" else None
        if name is None and said[0] in TURNING and words[0] != b"open":
            return None
    return file, last, psbt


def wrong_first_job(end, place, beside):
    """Whether `fund` of the same files, with as many tries, comes to the same as the turns of the first job did."""
    found = first_job(end)
    if found is None or found[1] is None or found[1][0] == b"spent" or found[0] not in end.given:
        return None
    file, last, psbt = found
    files = {**{name: end.given[at] for name, at in zip(THREE, end.words[1:3])}, "request.json": end.given[file]}
    files = with_members(files, tries=max(1, int(last[-1])))
    said = place.run(FUND, files).printed.split(b"\n")
    told = {line.split(b" ")[0]: line.split(b" ")[-1] for line in said}
    beside["desk jobs funded anew"] += 1
    if said[0].split(b" ") != [last[0], *last[2:-1]] or told.get(b"tries") != last[-1] or psbt not in (None, told.get(b"psbt")):
        return f"the job that was opened first ended with {last}, and `fund` says {said[:4]}"
    return None
