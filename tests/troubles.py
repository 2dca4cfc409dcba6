"""That docs/TROUBLES.md has the sentence of each fault as the program has it, and no other.

    python3 tests/troubles.py           compares; ends with 1 where they differ
    python3 tests/troubles.py --write   makes these sections of the page anew

The sentences stand in crates/fault_lines/specs/Sentences.antt, those of the words of `ninelace pay` in
crates/pay_words/specs/Sentences.antt and, of `max` in place of an amount, in crates/max_words/specs/Sentences.antt, and those of
statuses and of methods that find nothing in crates/people_advice/specs; the code is proved to
give these. Where both have a fault, as an unknown method,
its sentence is one."""
import os
import re
import sys

TOP = os.path.dirname(os.path.dirname(os.path.abspath(__file__)))
SENTENCES = os.path.join(TOP, "crates/fault_lines/specs/Sentences.antt")
WORDS = os.path.join(TOP, "crates/pay_words/specs/Sentences.antt")
MOST = os.path.join(TOP, "crates/max_words/specs/Sentences.antt")
STATUSES = os.path.join(TOP, "crates/people_advice/specs/Statuses.antt")
NOTHING = os.path.join(TOP, "crates/people_advice/specs/Nothing.antt")
CODES = os.path.join(TOP, "crates/command_end/specs/StatusCode.antt")
PAGE = os.path.join(TOP, "docs/TROUBLES.md")
HEADING = "## Each fault in a sentence"
INTRO = "`ninelace` says the sentence of a fault behind its line, and `ninelace explain LINE` says that of any line in this table.\n"
WORDS_HEADING = "## Words of `pay`"
WORDS_INTRO = "`ninelace pay` says the sentence behind the word or the flag that it is about.\n"

NONE_HEADING = "## Nothing that pays, by method"
NONE_INTRO = "`ninelace pay` says the sentence behind `none`.\n"
STATUS_HEADING = "## Each status in a sentence"
STATUS_INTRO = "`ninelace explain NUMBER` says it.\n"

# the words of a fault line before those of a fault, by the definition that has its sentence
LINES = {
    "blocks_sentence": "input blocks ",
    "wallet_sentence": "input wallet ",
    "request_sentence": "input request ",
    "keys_form_sentence": "input keys ",
    "keys_sentence": "input keys ",
    "bump_sentence": "input bump ",
    "not_pending_sentence": "input bump NotPending ",
    "state_sentence": "input bump NotPending ",
    "plan_sentence": "input plan ",
    "unsuited_sentence": "input plan ",
    "psbt_sentence": "input psbt ",
    "tx_sentence": "input wallet Tx LIST INDEX ",
    "signed_sentence": "input tx ",
    "address_sentence": "input request Address INDEX ",
    "check_sentence": "check ",
    "settle_sentence": "settle ",
    "differing_sentence": "settle Differs ",
    "kept_sentence": "saved ",
    "wallet_kind_sentence": "input wallet Kind ",
    "other_request_kind_sentence": "input request Kind ", "request_kind_sentence": "input request Kind ",
    "request_member_sentence": "input request Member ",
}
# what a fault line says of a fault otherwise than by its own name
OTHERS = {
    "Usage": "usage", "Read": "read NAME", "Write": "write NAME", "Keep": "keep", "Memory": "memory",
    "WalletLimit": "limit wallet", "BlocksLimit": "limit blocks", "RequestLimit": "limit request",
    "CoinsLimit": "limit coins", "ScriptLimit": "limit script", "PsbtLimit": "limit psbt", "KeysLimit": "limit keys", "TxLimit": "limit tx", "NotHex": "input tx Hex",
    "ReportLimit": "limit report", "LogLimit": "limit log", "RepeatCoin": "input book RepeatCoin COIN",
    "plan_sentence TooMany": "limit groups",
    "kept_sentence Form": "saved SavedForm", "kept_sentence Spent": "limit tries",
    "kept_sentence LongLog": "limit log", "kept_sentence Part": "saved SavedFalse Part",
    "kept_sentence Parts": "saved SavedFalse Parts",
    "kept_sentence Section": "saved SavedFalse Section", "kept_sentence IllFormed": "saved SavedFalse IllFormed",
    "kept_sentence Log": "saved SavedFalse Log",
}
# the sentences that stand alone, with their line
ALONE = {
    "wallet_member_sentence": "input wallet Member NAME", "wallet_missing_sentence": "input wallet Missing NAME",
    "wallet_repeat_sentence": "input wallet Repeat LIST INDEX", "request_missing_sentence": "input request Missing NAME",
    "rate_range_sentence": "input request RateRange NAME", "missing_sentence": "input psbt Missing INPUT COIN",
    "keys_kind_sentence": "input keys Kind NAME", "keys_member_sentence": "input keys Member NAME", "keys_missing_sentence": "input keys Missing NAME",
    "key_global_sentence": "input psbt KeyGlobal NUMBER", "key_input_sentence": "input psbt KeyInput INPUT TYPE",
    "key_output_sentence": "input psbt KeyOutput OUTPUT TYPE",
    "other_output_sentence": "input psbt OtherOutput INPUT COIN", "other_pairs_sentence": "input psbt OtherPairs",
}
# the same, of a report without a payment
REPORTS = {"none_sentence": "none", "unfinished_sentence": "unfinished"}
# the faults that have other words, or a sentence without a line: used up tries, and a final witness that is none
OWN_WORDS = {"Spent", "Witness"}
# what comes before the name of a fault of words, by the definition that has its sentence
OF_WORDS = {"word_sentence": "", "amount_sentence": "Amount ", "rate_sentence": "Rate ", "base58_sentence": "Base58 ", "network_sentence": "Foreign ", "pay_file_sentence": "File "}
# the faults of words whose sentence stands in the other file too, with their line there
SAME = {"Method": "fault input request Kind method", "Seed": "fault input request Kind seed", "Memory": "fault memory"}
# of a field its place in the line, as the pages write it
FIELDS = {"place": "PLACE", "key": "KEY", "output": "OUTPUT", "height": "HEIGHT", "name": "NAME", "index": "INDEX", "list": "LIST",
          "fault": "FAULT", "coin": "COIN", "sum": "SUM", "number": "NUMBER", "kept": "KEPT", "found": "FOUND", "now": "NOW", "txid": "TXID", "n": "COUNT", "fee": "FEE", "vsize": "VSIZE",
          "version": "VERSION", "input": "INPUT", "kind": "TYPE", "weight": "WEIGHT", "declared": "DECLARED", "needed": "NEEDED"}
CASE = re.compile(r'^(\w+) \(?\w+\.(\w+)((?: \w+)*)\)? = codes "([^"]*)"$')
MAX = re.compile(r'^max_sentence \(faults\.(\w+) place\) = Some \(codes "([^"]*)"\)$')
NONE = re.compile(r'^(\w+) None = codes "([^"]*)"$')
KIND = re.compile(r'^ +if bytes_eq name \(codes "(\w+)"\) then codes "([^"]*)" else$')
LONE = re.compile(r'^(\w+_sentence) = codes "([^"]*)"$')
REST = re.compile(r'^ +codes "([^"]*)"$')
HEAD = re.compile(r'^(\w+_(?:kind|member)_sentence) name =$')


def line_of(function, variant, fields):
    """What the fault line says behind the word fault."""
    other = OTHERS.get(function + " " + variant)
    if function == "stop_sentence" or (other and variant in ("TooMany", "Spent", "LongLog", "Limit")):
        return other or OTHERS[variant]
    words = other or LINES[function] + variant
    return " ".join([words] + [FIELDS[f] for f in fields.split() if f in FIELDS])


def rows():
    """The fault lines and their sentences, in the order of the definitions."""
    found, function = [], None
    for line in open(SENTENCES, encoding="utf-8").read().split("\n"):
        case, kind, rest, head = CASE.match(line), KIND.match(line), REST.match(line), HEAD.match(line)
        none, lone = NONE.match(line), LONE.match(line)
        if lone:
            found.append((REPORTS.get(lone[1]) or "fault " + ALONE[lone[1]], lone[2]))
        elif none:
            found.append(("fault " + LINES[none[1]] + "None", none[2]))
        elif case and (case[1], case[2]) == ("state_sentence", "Pending"):
            pass  # no line says it: a payment that is Pending has another fault, or none
        elif case:
            found.append(("fault " + line_of(case[1], case[2], case[3]), case[4]))
        elif head:
            function = head[1]
        elif kind:
            found.append(("fault " + LINES[function] + kind[1], kind[2]))
        elif rest:
            found.append(("fault " + LINES[function] + "NAME", rest[1]))
    return found


def untold():
    """The faults of docs/FORMATS.md for which docs/TROUBLES.md has no line."""
    formats = open(os.path.join(TOP, "docs/FORMATS.md"), encoding="utf-8").read().split("\n")
    lines = [line.split("|")[1] for line in open(PAGE, encoding="utf-8").read().split("\n") if line.startswith("|")]
    told = {word for line in lines for span in re.findall(r"`([^`]*)`", line) for word in re.findall(r"\w+", span)}
    found, head, section = [], None, ""
    for line in formats:
        section = line if line.startswith("#") else section
        if "keys file" in section and "keys" not in told:
            continue  # no command reads such a file yet
        cells = [cell.strip() for cell in line.strip("|").split("|")] if line.startswith("|") else None
        if cells and head == "Fault":
            found += [span for span in re.findall(r"`([^`]*)`", cells[0]) if span.split("(")[0].split(" ")[0] not in told | OWN_WORDS]
        head = None if cells is None else head or cells[0]
    return found


def word_rows():
    """The faults of words and their sentences, in the order of the definitions."""
    cases = [CASE.match(line) for line in open(WORDS, encoding="utf-8").read().split("\n")]
    most = [MAX.match(line) for line in open(MOST, encoding="utf-8").read().split("\n")]
    return [(OF_WORDS[case[1]] + case[2], case[4]) for case in cases if case] + [("Max " + case[1], case[2]) for case in most if case]


def status_rows():
    """The numbers of statuses and their sentences, in the order of the definitions."""
    codes = dict(re.findall(r"^code_of (\w+) = (\d+)$", open(CODES, encoding="utf-8").read(), re.M))
    cases = [CASE.match(line) for line in open(STATUSES, encoding="utf-8").read().split("\n")]
    return [(codes[case[2]], case[4]) for case in cases if case]


def none_rows():
    """The methods that found nothing and their sentences, in the order of the definitions."""
    text = open(NOTHING, encoding="utf-8").read()
    cases = [CASE.match(line) for line in text.split("\n")]
    beside = {" true": ", with `--coin`", " false": ", without `--coin`"}
    ways = {"Share": "`weight`, with `--fee-from-amount`", "Wide": "`changeless`, with `--consolidate`"}
    found = []
    for case in cases:
        if case and case[1] == "none_for":
            found.append((ways[case[2]], case[4]))
        elif case:
            bump = ", with `--bump`" if case[1] == "none_replacing" else ""
            found.append(("`%s`%s" % (case[2].lower(), bump or beside.get(case[3], "")), case[4]))
    return found + [("of `ninelace sweep`", re.search(r'^none_swept = codes "([^"]*)"$', text, re.M)[1])]


def section():
    """The sections of the page."""
    lines = [HEADING, "", INTRO, "| Line | Sentence |", "|---|---|"]
    lines += ["| `%s` | %s |" % row for row in rows()]
    lines += ["", WORDS_HEADING, "", WORDS_INTRO, "| Fault | Sentence |", "|---|---|"]
    lines += ["| `%s` | %s |" % row for row in word_rows()]
    lines += ["", NONE_HEADING, "", NONE_INTRO, "| `--method` | Sentence |", "|---|---|"]
    lines += ["| %s | %s |" % row for row in none_rows()]
    lines += ["", STATUS_HEADING, "", STATUS_INTRO, "| Status | Sentence |", "|---|---|"]
    lines += ["| `%s` | %s |" % row for row in status_rows()]
    return "\n".join(lines) + "\n"


def apart():
    """The faults of words whose sentence is another in the other file."""
    told, words = dict(rows()), dict(word_rows())
    return [name for name, line in SAME.items() if words[name] != told[line]]


def main():
    page = open(PAGE, encoding="utf-8").read()
    begin = page.find(HEADING)
    end = page.find("## Taken without a word")
    if apart():
        print("pay_words says of %s otherwise than fault_lines" % ", ".join(apart()))
        return 1
    if sys.argv[1:] != ["--write"] and untold():
        print("docs/TROUBLES.md has no line for %s" % ", ".join(untold()))
        return 1
    if sys.argv[1:] == ["--write"]:
        begin = end if begin < 0 else begin
        page = page[:begin] + section() + "\n" + page[end:]
        open(PAGE, "w", encoding="utf-8").write(page)
        return 0
    if begin < 0 or page[begin:end].strip() != section().strip():
        print("docs/TROUBLES.md: the sentences of the faults aren't those of the program; run tests/troubles.py --write")
        return 1
    print("%d sentences are the same" % (len(rows()) + len(word_rows()) + len(none_rows()) + len(status_rows())))
    return 0


if __name__ == "__main__":
    sys.exit(main())
