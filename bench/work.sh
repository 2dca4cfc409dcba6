#!/usr/bin/env bash
# Times `work 1 COUNT` by crates/fund_cli for 100, 1,000 and 10,000 coins, beside a plain Rust program (bench/peers/work.rs) in
# two forms: one makes the same wallet, keeps it and finds its coins there; the other makes the coins alone. All make the same
# searches, payment and summary, and must print the same. Prints the best processor time of so many runs of each, in turn,
# and of both forms the ratio of the best times and the median of the ratios. A step that fails ends it with a non-zero
# status; a time never does.
#
# usage: bench/work.sh [RUNS]
. "$(dirname "$0")/programs.sh"

# Proves and builds the program, and builds the peer.
built fund_cli work 1 100
rustc --edition 2021 -O "$top/bench/peers/work.rs" -o "$folder/peer"

python3 "$top/bench/work.py" "$program" "$folder/peer" "$folder/printed.txt" "${1:-20}"
