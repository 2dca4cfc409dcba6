#!/usr/bin/env python3
"""Judges the rows of `complete` in rows_cases, or makes them; outside the gate.

    tests/completions.py
    tests/completions.py FOLDER ROWS EXPECTED

The first looks at what each stored row has to print: the PSBT made whole, or its first fault. The second makes the rows, and what they
must print. FOLDER has fund/, with a folder for each case in which are wallet.json, blocks.dat and stdout, which `fund` printed; and
psbt.tsv, PSBTs with their faults, which were worked out apart. The PSBT of each case that is funded is made whole here, by
the definitions of crates/command_complete/specs done again. Rows for refusals, limits, failures
and PSBTs that are made whole twice are made of the first of these; their answers are stated by hand beside them. It shares
no code with the program, and needs Python alone.
"""
import base64
import collections
import json
import os
import re
import sys

from lib.bitcoin import compact, output_bytes, read_compact, read_tx, record, shown_point, string
from lib.programs import tell
from lib.stored_rows import answers_of, column
from pages import keyed, psbt_faults

NAMES = ("wallet.json", "blocks.dat", "psbt")
CASES = ["120-coins-in-blocks", "ancestors-25", "both-coins-exact", "coinbase-101-deep", "descendants-3",
         "given-auto", "group-full", "mixed-00", "mixed-07", "mixed-13", "mixed-21", "mixed-28", "mixed-36",
         "preset-unconfirmed", "row-1-draw-draw", "row-7-auto-lean-big", "unsafe-left-out"]


# ---- reading


def read_string(data, at):
    size, at = read_compact(data, at)
    return data[at:at + size], at + size


def read_map(data, at):
    pairs = []
    while True:
        key, at = read_string(data, at)
        if not key:
            return pairs, at
        value, at = read_string(data, at)
        pairs.append((key, value))


def maps_of(data):
    """The txid with the points that are spent and the outputs, and the maps of the PSBT: the global one, one for each input, one for
    each output. In version 2 (BIP 370) the maps have the points and the outputs, and there is no txid here."""
    assert data[:5] == b"psbt\xff"
    first, at = read_map(data, 5)
    known = dict(first)
    second = known.get(b"\xfb") == b"\x02\x00\x00\x00"
    tx = None if second else read_tx(known[b"\x00"])
    count = read_compact(known[b"\x04"], 0)[0] + read_compact(known[b"\x05"], 0)[0] if second else len(tx[1]) + len(tx[2])
    maps = [first]
    for _ in range(count):
        one, at = read_map(data, at)
        maps.append(one)
    assert at == len(data)
    if second:
        inputs = read_compact(known[b"\x04"], 0)[0]
        of_inputs, of_outputs = [dict(one) for one in maps[1:1 + inputs]], [dict(one) for one in maps[1 + inputs:]]
        points = [(one[b"\x0e"], int.from_bytes(one[b"\x0f"], "little")) for one in of_inputs]
        tx = (None, points, [(int.from_bytes(one[b"\x03"], "little"), one[b"\x04"]) for one in of_outputs])
    return tx, maps


def spelled(maps):
    text = b"psbt\xff"
    for one in maps:
        for key, value in one:
            text += string(key) + string(value)
        text += b"\x00"
    return text


def transactions(wallet, blocks):
    """Confirmed ones in order, then those that wait and aren't confirmed, each as its bytes."""
    found = [bytes.fromhex(one["tx"]) for one in wallet.get("earlier", [])]
    at = 0
    while at < len(blocks):
        count, at = read_compact(blocks, at + 88)
        for _ in range(count):
            end = read_tx(blocks, at)[3]
            found.append(blocks[at:end])
            at = end
    confirmed = {read_tx(tx)[0] for tx in found}
    waiting = [bytes.fromhex(tx) for tx in wallet.get("pending", [])]
    return found + [tx for tx in waiting if read_tx(tx)[0] not in confirmed]


def coins(wallet, blocks):
    """The transaction of each coin, by its outpoint."""
    scripts = {bytes.fromhex(one["script"]) for one in wallet["scripts"]}
    made = {}
    for data in transactions(wallet, blocks):
        txid, _, outputs, *_ = read_tx(data)
        for index, (_, script) in enumerate(outputs):
            if script in scripts:
                made.setdefault((txid, index), data)
    return made


# ---- making whole


def text_of(maps):
    return base64.b64encode(spelled(maps)).decode()


def made_whole(wallet, blocks, text, keys=None):
    """The status and what is printed, of a PSBT that is spelled as it is written, with the keys of a keys file."""
    made = coins(json.loads(wallet), blocks)
    tx, maps = maps_of(base64.b64decode(text))
    spent = []
    for number, point in enumerate(tx[1]):
        one = dict(maps[1 + number])
        whole = one.get(b"\x00", made.get(point))
        if whole is None:
            return 3, f"fault input psbt Missing {number} {shown_point(point)}\n"
        told = output_bytes(*read_tx(whole)[2][point[1]])
        if one.get(b"\x01", told) != told:
            return 3, f"fault input psbt OtherOutput {number} {shown_point(point)}\n"
        spent.append(read_tx(whole)[2][point[1]][1])
        maps[1 + number] = [(b"\x00", whole)] + [pair for pair in maps[1 + number] if pair[0] != b"\x00"]
    if keys is None:
        return 0, text_of(maps) + "\n"
    maps = keyed.added(spent, [script for _, script in tx[2]], maps, keyed.read(keys))
    return (3, maps) if isinstance(maps, str) else (0, text_of(maps) + "\n")


# ---- rows


def columns_of(data):
    """The columns of bytes; a number is so many zero bytes."""
    if not isinstance(data, int):
        return [column(data)]
    size = max(n for n in range(1, 65) if data % n == 0)
    return [column(bytes(size)), str(data // size)]


class Rows:
    def __init__(self):
        self.rows, self.expected = [], []

    def add(self, name, wallet, blocks, psbt, due, fails=()):
        reads, puts = fails or ("", "")
        rows = [["case", "-", reads, "", puts]]
        rows += [["file", file, *columns_of(data)] for file, data in zip(NAMES, (wallet, blocks, psbt)) if data is not None]
        rows.append(["whole", f"{name}: ", "psbt", *NAMES[:2]])
        self.rows += ["\t".join(row).rstrip("\t") + "\n" for row in rows]
        self.expected.append(f"{name}: status {due[0]}\n{due[1]}")


def changed(text, change):
    tx, maps = maps_of(base64.b64decode(text))
    change(tx, maps)
    return text_of(maps).encode()


def block_of(tx):
    """A block file of one block, behind one of a hash of zeros, that has this transaction alone."""
    header = bytes(36) + read_tx(tx)[0] + bytes(12)
    return record(header + compact(1) + tx)


def failures(rows, wallet, psbt, whole):
    """Rows in which a read or a put fails, by its number from 0: an empty block file is read by the third to the fifth."""
    ends = [("0", "wallet.json"), ("1", "wallet.json"), ("2", "blocks.dat"), ("5", "psbt"), ("6", "psbt")]
    for number, name in ends:
        rows.add(f"read-{number}-fails", wallet, b"", psbt, (4, f"fault read {name}\n"), [number, ""])
    rows.add("a-later-read-fails", wallet, b"", psbt, (0, whole + "\n"), ["7", ""])
    rows.add("put-fails", wallet, b"", psbt, (5, ""), ["", "0"])
    rows.add("put-of-a-fault-line-fails", wallet, b"", b"", (3, ""), ["", "0"])
    rows.add("read-and-put-fail", wallet, b"", psbt, (4, ""), ["5", "0"])
    rows.add("a-later-put-fails", wallet, b"", psbt, (0, whole + "\n"), ["", "1"])


def spelled_faults(rows, folder, wallet):
    """A PSBT of each fault, from a table of PSBTs that was worked out apart."""
    seen = set()
    for line in open(os.path.join(folder, "psbt.tsv")):
        cells = line.rstrip("\n").split("\t")
        if len(cells) < 2 or not cells[1].startswith("fault ") or cells[1].split()[1] in seen:
            continue
        fault = cells[1].removeprefix("fault ")
        seen.add(fault.split()[0])
        data = b"" if cells[0] == "-" else bytes.fromhex(cells[0])
        rows.add("table-" + fault.split()[0], wallet, b"", base64.b64encode(data), (3, f"fault input psbt {fault}\n"))
    assert {"Field", "Magic", "NoUnsigned", "RepeatKey", "Trailing", "Truncated", "Unsigned", "Version", "WrongParent"} <= seen


def before_the_psbt(rows, wallet, psbt):
    """Rows whose wallet or blocks are refused; each is told before the PSBT, which is refused too."""
    earlier = bytes.fromhex(json.loads(wallet)["earlier"][0]["tx"])
    txid = read_tx(earlier)[0]
    rows.add("bad-blocks", wallet, b"\x01", b"", (3, "fault input blocks Magic 0\n"))
    rows.add("coin-twice", wallet, block_of(earlier), b"", (3, f"fault input book RepeatCoin {txid[::-1].hex()}:0\n"))


def refusals(rows, wallet, blocks, text, whole):
    """Rows of a payment whose inputs show outputs alone; the answers are stated by hand."""
    tx, maps = maps_of(base64.b64decode(text))
    assert len(tx[1]) > 1 and all([key for key, _ in one] == [b"\x01"] for one in maps[1:1 + len(tx[1])])
    first, last = tx[1][0], tx[1][-1]
    number = len(tx[1]) - 1
    psbt = text.encode()

    # the files before it
    rows.add("no-wallet", None, blocks, psbt, (4, "fault read wallet.json\n"))
    rows.add("no-blocks", wallet, None, psbt, (4, "fault read blocks.dat\n"))
    rows.add("no-psbt", wallet, blocks, None, (4, "fault read psbt\n"))
    rows.add("long-wallet", 16_777_217, blocks, psbt, (9, "fault limit wallet\n"))
    rows.add("bad-wallet", b"{", blocks, psbt, (3, "fault input wallet NotJson\n"))
    rows.add("bad-wallet-before-long-psbt", b"{", blocks, 67_108_865, (3, "fault input wallet NotJson\n"))

    before_the_psbt(rows, wallet, psbt)

    # its length and its form
    rows.add("long-psbt", wallet, blocks, 67_108_865, (9, "fault limit psbt\n"))
    rows.add("zeros-at-the-limit", wallet, blocks, 67_108_864, (3, "fault input psbt NotBase64\n"))
    rows.add("empty", wallet, blocks, b"", (3, "fault input psbt Magic\n"))
    rows.add("line-feed-alone", wallet, blocks, b"\n", (3, "fault input psbt Magic\n"))
    rows.add("two-line-feeds", wallet, blocks, psbt + b"\n\n", (3, "fault input psbt NotBase64\n"))
    rows.add("carriage-return", wallet, blocks, psbt + b"\r\n", (3, "fault input psbt NotBase64\n"))
    rows.add("raw-bytes", wallet, blocks, base64.b64decode(text), (0, whole + "\n"))
    rows.add("no-magic", wallet, blocks, base64.b64encode(b"psbt\xfe\x00"), (3, "fault input psbt Magic\n"))
    rows.add("no-unsigned", wallet, blocks, base64.b64encode(b"psbt\xff\x00"), (3, "fault input psbt NoUnsigned\n"))
    data = base64.b64decode(text)
    rows.add("cut", wallet, blocks, base64.b64encode(data[:-1]), (3, f"fault input psbt Truncated {len(data) - 1}\n"))
    rows.add("trailing", wallet, blocks, base64.b64encode(data + b"\x00"), (3, f"fault input psbt Trailing {len(data)}\n"))
    wrong = bytes.fromhex(json.loads(wallet)["earlier"][0]["tx"])
    other = next(n for n, point in enumerate(tx[1]) if point[0] != read_tx(wrong)[0])
    rows.add("wrong-parent", wallet, blocks, changed(text, lambda t, m: m[1 + other].insert(0, (b"\x00", wrong))),
             (3, f"fault input psbt WrongParent {other}\n"))

    place = len(data) - len(spelled(maps[1:])) + 5 + 2
    rows.add("long-compact", wallet, blocks, base64.b64encode(data[:place] + b"\xfd" + data[place:place + 1] + b"\x00" + data[place + 1:]),
             (3, f"fault input psbt LongCompact {place}\n"))
    bare = maps[0][0][1]
    signed = bare[:41] + b"\x01\x51" + bare[42:]
    rows.add("not-bare", wallet, blocks, base64.b64encode(spelled([[(b"\x00", signed)]] + maps[1:])), (3, "fault input psbt NotBare\n"))
    rows.add("no-padding", wallet, blocks, psbt.rstrip(b"="), (3, "fault input psbt NotBase64\n"))
    rows.add("blank-before", wallet, blocks, b" " + psbt, (3, "fault input psbt NotBase64\n"))

    # its spelling
    key = b"\x06" + b"\x02" * 33
    rows.add("other-pair-of-an-input", wallet, blocks, changed(text, lambda t, m: m[1].append((key, b"\x00" * 4))), (3, "fault input psbt OtherPairs\n"))
    rows.add("other-pair-of-an-output", wallet, blocks, changed(text, lambda t, m: m[-1].append((b"\x02" + b"\x03" * 33, b"\x00" * 4))),
             (3, "fault input psbt OtherPairs\n"))
    rows.add("version-said", wallet, blocks, changed(text, lambda t, m: m[0].append((b"\xfb", b"\x00" * 4))), (3, "fault input psbt OtherPairs\n"))
    rows.add("pairs-turned", wallet, blocks, changed(whole, lambda t, m: m[1].reverse()), (3, "fault input psbt OtherPairs\n"))

    # its inputs
    rows.add("line-feed-at-its-end", wallet, blocks, psbt + b"\n", (0, whole + "\n"))
    rows.add("whole-already", wallet, blocks, whole.encode(), (0, whole + "\n"))
    rows.add("whole-already-with-line-feed", wallet, blocks, whole.encode() + b"\n", (0, whole + "\n"))
    half = changed(text, lambda t, m: m[1].insert(0, maps_of(base64.b64decode(whole))[1][1][0]))
    rows.add("first-whole-already", wallet, blocks, half, (0, whole + "\n"))
    none = json.loads(wallet)
    none.update(scripts=[], earlier=[], pending=[])
    bare = json.dumps(none).encode()
    rows.add("missing-first", bare, b"", psbt, (3, f"fault input psbt Missing 0 {shown_point(first)}\n"))
    paid = json.loads(wallet)
    paid.update(scripts=[])
    rows.add("paid-to-no-script-of-the-wallet", json.dumps(paid).encode(), b"", psbt, (3, f"fault input psbt Missing 0 {shown_point(first)}\n"))
    rows.add("other-pairs-before-missing", bare, b"", changed(text, lambda t, m: m[1].append((key, b"\x00" * 4))), (3, "fault input psbt OtherPairs\n"))
    rows.add("missing-second", bare, b"", half, (3, f"fault input psbt Missing 1 {shown_point(tx[1][1])}\n"))
    rows.add("whole-already-needs-no-coin", bare, b"", whole.encode(), (0, whole + "\n"))

    def dearer(t, m):
        value, rest = m[number + 1][0][1][:8], m[number + 1][0][1][8:]
        m[number + 1][0] = (b"\x01", (int.from_bytes(value, "little") + 1).to_bytes(8, "little") + rest)

    def elsewhere(t, m):
        m[1][0] = (b"\x01", m[1][0][1][:-1] + bytes([m[1][0][1][-1] ^ 1]))

    rows.add("last-output-dearer", wallet, blocks, changed(text, dearer), (3, f"fault input psbt OtherOutput {number} {shown_point(last)}\n"))
    rows.add("first-output-elsewhere", wallet, blocks, changed(text, elsewhere), (3, f"fault input psbt OtherOutput 0 {shown_point(first)}\n"))
    rows.add("first-of-two-faults", wallet, blocks, changed(text, lambda t, m: (elsewhere(t, m), dearer(t, m))), (3, f"fault input psbt OtherOutput 0 {shown_point(first)}\n"))
    rows.add("output-elsewhere-beside-its-transaction", bare, b"", changed(half, lambda t, m: m[1].__setitem__(1, (b"\x01", m[1][1][1][:-1] + b"\x00"))),
             (3, f"fault input psbt OtherOutput 0 {shown_point(first)}\n"))
    rows.add("nothing-beside-an-input", wallet, blocks, changed(text, lambda t, m: m[1].clear()),
             (0, changed(whole, lambda t, m: m[1].pop()).decode() + "\n"))


# ---- stored rows


def fault_of(text):
    """The first fault of a PSBT's text, but for pairs that `complete` doesn't keep; None where it has none."""
    return psbt_faults.fault_of(text.removesuffix(b"\n"))


def judged(step, status, printed):
    """What kind of end a stored row comes to; fails where it isn't the one that is due."""
    if len(step.files) < 3 or step.puts or status in (4, 5, 9) or printed.startswith(("fault input wallet", "fault input b")):
        return "before the PSBT, or at its limit, or failing"
    if printed == "fault input psbt OtherPairs\n":
        return "other pairs"
    if printed.startswith("fault input keys"):
        return "a keys file that is refused"
    wallet, blocks, psbt = (step.files[name] for name in NAMES)
    psbt = base64.b64encode(psbt) if psbt.startswith(b"psbt\xff") else psbt
    keys = step.files.get(step.columns[4]) if len(step.columns) > 4 else None
    fault = fault_of(psbt)
    due = (3, f"fault input psbt {fault}\n") if fault else made_whole(wallet, blocks, psbt.strip(), keys)
    assert due == (status, printed), f"{due} is due, and not {(status, printed)}"
    return "whole" if status == 0 else "refused"


def stored():
    """Judges the stored rows."""
    ends = collections.Counter()
    for step, status, printed in [*answers_of("complete"), *answers_of("keyed")]:
        try:
            ends[judged(step, status, printed)] += 1
        except AssertionError as wrong:
            print(f"WRONG, {step.columns[0]}{wrong}")
            return 1
    tell(f"{sum(ends.values())} stored cases", ends)
    return 0


def main():
    if len(sys.argv) == 1:
        return stored()
    folder, rows_file, expected_file = sys.argv[1:]
    rows = Rows()
    stated = False
    for case in CASES:
        path = os.path.join(folder, "fund", case)
        wallet = open(os.path.join(path, "wallet.json"), "rb").read()
        blocks = open(os.path.join(path, "blocks.dat"), "rb").read()
        found = re.search(r"^psbt (\S+)$", open(os.path.join(path, "stdout")).read(), re.M)
        if not found:
            continue
        text = found.group(1)
        due = made_whole(wallet, blocks, text)
        assert due[0] == 0
        rows.add(case, wallet, blocks, text.encode(), due)
        assert made_whole(wallet, blocks, due[1].strip()) == due
        inputs = len(maps_of(base64.b64decode(text))[0][1])
        plain = json.loads(wallet).get("earlier") and not blocks
        if not stated and plain and inputs > 1 and len(due[1]) < 6000:
            refusals(rows, wallet, blocks, text, due[1].strip())
            failures(rows, wallet, text.encode(), due[1].strip())
            spelled_faults(rows, folder, wallet)
            stated = True
    assert stated
    open(rows_file, "w").writelines(rows.rows)
    open(expected_file, "w").writelines(rows.expected)
    print(len(rows.expected), "cases")
    return 0


if __name__ == "__main__":
    sys.exit(main())
