#!/usr/bin/env bash
# Times a payment from a wallet of 10,000 coins over 64 MiB of blocks by crates/fund_cli, the best of three, and prints the
# report's first lines, the seconds, the greatest memory, and the shares of its processor time by what was done, as Linux'
# perf samples them. With the method `manual` 100 coins are listed; with another it searches. The ladder has six rows, so six
# pools are made. A step that fails ends it with a non-zero status; a time never does.
#
# usage: bench/fund.sh [SEED] [METHOD] [TRIES]
. "$(dirname "$0")/programs.sh"

# Proves and builds the program, and runs it on a small file of its folder data/.
built fund_cli coins data/wallet.json data/blocks.dat
cd "$folder"
python3 "$top/bench/make_fund.py" wallet.json blocks.dat request.json --seed "${1:-1}" --method "${2:-manual}" --tries "${3:-100000}"
PYTHONPATH=$top/bench python3 - "$program" <<'PYTHON'
import collections, re, subprocess, sys
from timing import best

command = [sys.argv[1], "fund", "wallet.json", "blocks.dat", "request.json", "log"]
taken = best(command, output="report")
lines = open("report").read().splitlines()
assert lines[0].startswith("funded "), lines[:1]
print(", ".join(lines[:4]) + f", {sum(line.startswith('in ') for line in lines)} coins")
print(f"time: {taken.seconds:.2f} s, {taken.memory // 1048576} MiB of memory, load {open('/proc/loadavg').read().split()[0]}")

SHARES = (
    ("hashing", r"sha2::"),
    ("walks and draws", r"walk_engine::|bnb_search::|coin_grinder::|search_run::|search_keep::|pick_problem::|random_draw::|rand_chacha"),
    ("system, reading files and pages of memory", r"\[k\]"),
    ("memory: taken, given back, moved", r"libc\.so|rattle_alloc|Destruct::drop|std_alloc::"),
    ("pools and plan", r"output_groups::|fund_steps::|fund_plan::|fee_rates::|core::slice::(sort|edits)"),
    ("states and candidates", r"payment_states::|coin_candidates::"),
    ("book of coins", r"coin_book::|indexmap::"),
    ("JSON and hex", r"serde_json|\bjson|json_fields::|wallet_text::|request_text::|\bhex::"),
    ("reading transactions and blocks", r"tx_codec::|block_feed::|fund_base::|fund_shelf::|fund_files::"),
)
subprocess.run(["perf", "record", "-q", "-F", "4999", "-o", "perf.data", *command], check=True, stdout=subprocess.DEVNULL)
report = subprocess.run(["perf", "report", "-i", "perf.data", "--no-children", "--stdio"], check=True, capture_output=True, text=True).stdout
shares, rest = collections.Counter(), 0.0
for line in report.splitlines():
    found = re.match(r"\s+([0-9.]+)%\s+(.*)", line)
    if found:
        share, name = float(found[1]), found[2]
        which = next((what for what, form in SHARES if re.search(form, name)), "the rest")
        shares[which] += share
for what, share in shares.most_common():
    print(f"{share:5.1f} %  {what}")
PYTHON
