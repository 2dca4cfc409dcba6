#!/usr/bin/env bash
# Times `coins` over a wallet of 100,000 coins, beside the reading of the same wallet file, after which `coins` stops where
# there is no block file: with 5,000 pending payments in chains of 25, and with as many in one chain, the worst case for
# counting ancestors. Prints the best of three each, in processor seconds. A step that fails ends it with a non-zero status; a time
# never does.
#
# usage: bench/states.sh [SEED]
. "$(dirname "$0")/programs.sh"

# Proves and builds the program, and runs it on the small files of its folder data/.
built fund_cli coins data/wallet.json data/blocks.dat

load
: >"$folder/blocks.dat"
for chain in 25 5000; do
    made=$(python3 "$top/bench/make_states.py" "$folder/wallet.json" --seed "${1:-1}" --chain "$chain")
    read_time=$(best 3 4 "$folder/printed.txt" "$program" coins "$folder/wallet.json" "$folder/none.dat")
    list_time=$(best 3 0 "$folder/printed.txt" "$program" coins "$folder/wallet.json" "$folder/blocks.dat")
    lines=$(wc -l <"$folder/printed.txt")
    awk -v r="$(seconds "$read_time")" -v l="$(seconds "$list_time")" -v memory="$(memory "$list_time")" -v made="$made" -v lines="$lines" \
        'BEGIN { printf "%s: read in %.3f s, listed in %.3f s and %d MiB (%.1f times), %d lines\n", made, r, l, memory, l / r, lines }'
done
