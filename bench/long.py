#!/usr/bin/env python3
"""Times files that someone made up to keep a command busy, and prints a line for each.

Usage: bench/long.py PROGRAM

PROGRAM is crates/fund_cli's program, as `rt run` leaves it in crates/fund_cli/out. The payment of crates/fund_cli/data is funded,
and its report is changed: the global map of its PSBT gets pairs of a type without a meaning, each with another key; or its
transaction spends its second coin again and again. A desk's script has `pending` lines of as many transactions. All come from a
seed. The time is the best of three runs, from start to end. A command that ends with another status than is due ends this.
"""
import base64
import os
import random
import subprocess
import sys
import tempfile

from timing import best

DATA = os.path.join(os.path.dirname(os.path.abspath(__file__)), "..", "crates", "fund_cli", "data")
PAIRS = (1_000, 100_000, 1_000_000, 5_000_000)
INPUTS = (1_000, 100_000, 1_000_000)
LINES = (100, 1_000, 10_000, 60_000)


def number(n):
    """CompactSize, as the Bitcoin developer reference has it under 'CompactSize Unsigned Integers'."""
    if n < 253:
        return bytes([n])
    return b"\xfd" + n.to_bytes(2, "little") if n < 65_536 else b"\xfe" + n.to_bytes(4, "little")


def with_pairs(psbt, count, rng):
    """The PSBT with so many pairs more at the end of its global map, whose transaction is shorter than 253 bytes."""
    end = 8 + psbt[7]
    pairs = (b"\x05\xfc" + key.to_bytes(4, "big") + b"\x00" for key in rng.sample(range(1 << 32), count))
    return psbt[:end] + b"".join(pairs) + psbt[end:]


def with_inputs(psbt, count):
    """A PSBT whose transaction spends the second coin of the payment so many times, and shows none."""
    tx = psbt[8 : 8 + psbt[7]]
    tx = tx[:4] + number(count) + tx[46:87] * count + tx[87:]
    return psbt[:5] + b"\x01\x00" + number(len(tx)) + tx + bytes(count + 2)


def pending(rng):
    """A transaction of one input and one output, in hex."""
    tail = "00fdffffff01e803000000000000160014" + "99" * 20 + "00000000"
    return "0200000001" + rng.randbytes(32).hex() + "00000000" + tail


def least(words, status):
    """The least seconds of three runs."""
    return best(words, status=status).seconds


def main():
    if len(sys.argv) != 2:
        sys.exit(__doc__)
    program, rng = sys.argv[1], random.Random(7)
    wallet, blocks, request = (os.path.join(DATA, name) for name in ("wallet.json", "blocks.dat", "request.json"))
    with tempfile.TemporaryDirectory() as folder:
        log, report, script = (os.path.join(folder, name) for name in ("log", "report", "script"))
        told = subprocess.run([program, "fund", wallet, blocks, request, log], stdout=subprocess.PIPE, check=True)
        lines = told.stdout.decode().splitlines()
        psbt = base64.b64decode(lines[-1].removeprefix("psbt "))

        def check(made, status):
            with open(report, "w") as file:
                file.write("\n".join([*lines[:-1], "psbt " + base64.b64encode(made).decode(), ""]))
            return least([program, "check", wallet, blocks, request, report, log], status)

        for count in PAIRS:
            print(f"a PSBT of {count} pairs in one map: {check(with_pairs(psbt, count, rng), 0):.2f} s", flush=True)
        for count in INPUTS:
            print(f"a PSBT of {count} inputs: {check(with_inputs(psbt, count), 12):.2f} s", flush=True)
        for count in LINES:
            with open(script, "w") as file:
                file.writelines(f"pending {pending(rng)}\n" for _ in range(count))
            print(f"{count} pending lines: {least([program, 'desk', wallet, blocks, script], 0):.2f} s", flush=True)


main()
