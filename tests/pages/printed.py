"""The forms of all that the built program may print, by command and status, as docs/FORMATS.md has them; and of the log, the
saved text and the words of a command. tests/mutate.py and tests/faults.py hold the ends of runs against them.

Nothing of this is taken from the program: each form is written from the page alone."""

import re

N = "(?:0|[1-9][0-9]*)"
HASH = "[0-9a-f]{64}"
COIN = f"{HASH}:{N}"
MARKS = "exhausted|partial|drawn|given"
STAGES = "presets|changeless|lean-big|draw|lean-small"
SEARCHES = "changeless|lean-big|lean-small"
ESCAPED = r"(?:[!-\[\]-~]|\\x(?:[01][0-9a-f]|20|5c|7f|[89a-f][0-9a-f]))*"

TX = f"(?:(?:Truncated|LongCompact|ValueRange|Trailing) {N}|NoInputs|NoOutputs|BadFlag|EmptyWitness)"
ADDRESS = "(?:Length|Case|Separator|Letter|Checksum|Network|Version|Padding)"
WALLET = (
    "NotJson|Kind (?:root|height|hash|scripts|script|weight|change|earlier|tx|pending|abandoned|locked)"
    f"|Member {ESCAPED}|Missing (?:height|hash|scripts|change|script|weight|tx)|(?:Script|Weight|ParentLater) {N}"
    f"|Tx (?:earlier|pending) {N} {TX}|Repeat (?:earlier|pending) {N}"
)
BLOCKS = f"(?:Magic|Length|Merkle|Mutated|Trailing|Empty) {N}|Tx {N} {TX}|NotLinked {HASH} {HASH}"
REQUEST = (
    "NotJson|Kind (?:root|recipients|rate|long_term|discard|change_target|method|seed|tries|when_unfinished|zero_conf"
    "|include_unsafe|group|coins|bump|replaceable|locktime|psbt|address|script|amount)"
    f"|Member {ESCAPED}|Missing (?:recipients|rate|seed|amount)|Address {N} {ADDRESS}|(?:Script|AmountRange|Dust|Repeat) {N}"
    "|SumRange|NoRecipients|RateRange (?:rate|long_term|discard)|TriesRange"
)
BUMP = (
    f"NotPending (?:None|Confirmed {N}|Conflicted {HASH}|Abandoned|Replaced {HASH})|NotSignalling|ForeignInput {COIN}"
    f"|TooManyEvicted {N}|RateBelowIncrement|RateNotHigher {N} {N}"
)
PLAN = f"Total {N}|NotEligible {COIN}"
PSBT = (
    f"(?:Truncated|LongCompact|RepeatKey|Field|Version|WrongParent|Trailing|Mixed|Lacking|RequiredLock) {N}|Magic|NoUnsigned"
    f"|Unsigned {TX}|NotBare|NotBase64"
)
SETTLE = (
    f"Report {N}|NotFunded|Psbt (?:{PSBT})|(?:NoValue|Foreign|Unsigned) {N}|Differs (?:Version|Locktime|Count|(?:Input|Output) {N})"
    f"|Heavier {N} {N} {N}|TooHeavy {N}|BelowRate -?{N} {N}"
)
LETTERS = f"(?:(?:UnknownToken|ReasonFalse|TooLong|BetterMet) {N}|Open|AnswerNotAdmissible)"
CHECK = f"(?:Report|LogForm|Section) {N}|Psbt (?:{PSBT})|Coin {COIN}|Pays|Log {N} {LETTERS}|Answer"
SAVED = f"NoJob|SavedForm {N}|JobElse {HASH} {HASH}|SavedFalse (?:(?:Part|Section) {N}|Parts {HASH} {HASH}|IllFormed|Log {N} {LETTERS})"

COUNTS = rf"weight {N}\nvsize {N}\nfee {N}\nwaste -?{N}\nchange (?:none|{N})\n"
PLACE = rf"row [0-7]\nstage (?:{STAGES})\ntries {N}\n"
FUNDED = rf"funded (?:{MARKS})\n{PLACE}(?:in {COIN} {N}\n)+{COUNTS}psbt [A-Za-z0-9+/]+=*\n"
WIDE = rf"funded (?:exhausted|partial)\nrow [1-7]\nstage wide\ntries {N}\n(?:in {COIN} {N}\n)+{COUNTS}psbt [A-Za-z0-9+/]+=*\n"
WIDE_UNFINISHED = rf"unfinished\ntries {N}\nrow [1-7]\nstage wide\n"
FIGURES = rf"weight {N}\nvsize {N}\nfee {N}\n"
SHARED = rf"shared\nrow [12]\ntries {N}\n(?:in {COIN} {N}\n)+(?:pay {N} {N}\n)+{FIGURES}change (?:none|{N})\npsbt [A-Za-z0-9+/]+=*\n"
SHARE_UNFINISHED = rf"unfinished\ntries {N}\nrow [12]\nstage lean-small\n"
SWEPT = rf"swept {N}\n(?:in {COIN} {N}\n)+{FIGURES}psbt [A-Za-z0-9+/]+=*\n"
SETTLED = rf"settled {HASH}\n{FIGURES}spare {N}\n"
UNFINISHED = rf"unfinished\ntries {N}\nrow [0-7]\nstage (?:{SEARCHES})\n"
NONE = rf"none\ntries {N}\n"
STATE = f"confirmed {N}|conflicted {HASH}|abandoned|replaced {HASH}|pending"
LISTING = (
    rf"tip {N} {HASH}\n(?:payment {HASH} (?:{STATE})\n)*"
    rf"(?:coin {COIN} {N} {N} (?:mine|foreign) (?:safe|unsafe) {N} {N}\n)*"
)
SUMMED = rf"work {N} {N}\n"
DIGEST = rf"report {HASH}\n"
CHAIN = f"wallet (?:{WALLET})|blocks (?:{BLOCKS})|book RepeatCoin {COIN}"
FILES = f"{CHAIN}|request (?:{REQUEST})|bump (?:{BUMP})|plan (?:{PLAN})"


def refused(faults):
    return rf"fault input (?:{faults})\n"


def limited(words):
    return rf"fault limit (?:{words})\n"


PAYMENT_LIMITS = "wallet|blocks|coins|request|groups"
KEEP = r"fault keep\n"
ASKED = f"{CHAIN}|request (?:{REQUEST})|plan Total {N}"
PAYMENT = {0: FUNDED, 3: refused(FILES), 9: limited(PAYMENT_LIMITS), 10: UNFINISHED, 11: NONE}
READ = r"fault read [^\n]+\n"
FORMS = {
    "coins": {0: LISTING, 3: refused(CHAIN), 4: READ, 9: limited("wallet|blocks|coins")},
    "fund": {**PAYMENT, 4: READ, 6: KEEP},
    "resume": {**PAYMENT, 4: READ, 6: KEEP, 8: rf"fault saved (?:{SAVED})\n", 9: limited(f"{PAYMENT_LIMITS}|tries|log")},
    "check": {
        0: rf"accepted\n(?:funded (?:{MARKS})|none|unfinished)\n",
        3: refused(FILES),
        4: READ,
        9: limited(f"{PAYMENT_LIMITS}|report|log"),
        12: rf"fault check (?:{CHECK})\n",
    },
    "desk": {3: refused(CHAIN), 4: READ, 9: limited("wallet|blocks|coins|script|request")},
    "wide": {0: WIDE, 3: refused(f"{ASKED}|plan NotWide"), 4: READ, 9: limited(PAYMENT_LIMITS), 10: WIDE_UNFINISHED, 11: NONE},
    "share": {
        0: SHARED,
        3: refused(f"{ASKED}|plan NotShare|plan ShareDust {N}"),
        4: READ,
        9: limited(PAYMENT_LIMITS),
        10: SHARE_UNFINISHED,
        11: NONE,
    },
    "sweep": {0: SWEPT, 3: refused(f"{ASKED}|plan NotSweep|plan TooHeavy {N}"), 4: READ, 9: limited(PAYMENT_LIMITS), 11: r"none\ntries 0\n"},
    "settle": {
        0: SETTLED,
        3: refused(f"wallet (?:{WALLET})|request (?:{REQUEST})|tx (?:Hex|{TX})"),
        4: READ,
        9: limited("wallet|request|report|tx"),
        13: rf"fault settle (?:{SETTLE})\n",
    },
    "work": {
        0: rf"{SUMMED}funded (?:{MARKS})\n{PLACE}{COUNTS}{DIGEST}",
        3: rf"fault input wallet Repeat earlier {N}\n",
        10: SUMMED + UNFINISHED + DIGEST,
        11: SUMMED + NONE + DIGEST,
    },
}
FORMS = {verb: {status: re.compile(form.encode()) for status, form in forms.items()} for verb, forms in FORMS.items()}

# which lines a desk may reply to a line with these words, NAME being the second of them
REPLIES = {
    b"open": rf"taken-name NAME|full|refused NAME (?:{REQUEST}|bump|{PLAN}|TooMany [1-7] {N})|opened NAME",
    b"turn": rf"(?:no-job|spent) NAME|(?:unfinished|none) NAME {N}|funded NAME (?:{MARKS}) {N}",
    b"commit": rf"(?:no-job|not-funded) NAME|taken NAME {COIN}|committed NAME {HASH} [A-Za-z0-9+/]+=*",
    b"close": "(?:no-job|closed) NAME",
    b"release": "(?:not-committed|released) NAME",
    b"blocks": rf"refused blocks (?:{BLOCKS}|RepeatCoin {COIN}|Full)|tip {N} {HASH}",
    b"pending": rf"refused pending (?:Kind|{TX}|Repeat|ParentLater|RepeatCoin {COIN}|Full)|seen {HASH}",
}

LOG = re.compile(
    rf"fund-log 1\n(?:section {N} (?:{SEARCHES}) {HASH}\ntokens [!-~]+\nanswer (?:none|{N}(?: {N})*)\n)*end\n".encode()
)
WIDE_LOG = re.compile(rf"wide-log 1\n(?:section {N} {HASH}\ntokens [IOSHVNTB]+\nanswer (?:none|{N}(?: {N})*)\n)*end\n".encode())
OPEN_LOG = re.compile(
    rf"fund-log 1\n(?:section {N} (?:{SEARCHES}) {HASH}\ntokens [!-~]+\nanswer (?:none|{N}(?: {N})*)\n)*"
    rf"section {N} (?:{SEARCHES}) {HASH}\ntokens [!-~]*".encode()
)


def reply_form(words):
    """The form of the reply to a desk's line of these words; of no command where they are None."""
    if words is None:
        return re.compile(b"refused command")
    name = words[1].lower() if words[0] == b"release" else words[1]
    return re.compile(REPLIES[words[0]].encode().replace(b"NAME", re.escape(name)))


# ---- the words of a command

JOB = re.compile(r"[A-Za-z0-9-]{1,32}")
DECIMAL = re.compile(N)


def is_number(word, least, most):
    return DECIMAL.fullmatch(word) is not None and least <= int(word) <= most


def is_command(words):
    """Whether the words are a command, by the tables of 'Commands and statuses'."""
    verb, rest = (words[0], words[1:]) if words else ("", [])
    if verb == "work":
        return len(rest) == 2 and is_number(rest[0], 0, 2**63 - 1) and is_number(rest[1], 1, 10_000)
    names = {"coins": (2,), "desk": (3,), "check": (5,), "fund": (4, 5), "resume": (5,), "wide": (4,), "share": (4,), "sweep": (3,),
             "settle": (4,)}.get(verb, ())
    if len(rest) not in names or not all(rest):
        return False
    if verb not in ("fund", "resume", "wide", "share"):
        return True
    return rest[3] not in rest[:3] and (len(rest) == 4 or JOB.fullmatch(rest[4]) is not None)
