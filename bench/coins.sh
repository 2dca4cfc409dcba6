#!/usr/bin/env bash
# Times `coins` over 10,000 and over 100,000 coins, in blocks of 20 coins each, the best of three, and prints the processor
# seconds, the greatest memory, and how many times the first the second takes: about 10 where the time grows with the number of
# coins, and up to 12 is thought fine. The time has the reading of the blocks and the listing in it. A step that fails ends
# it with a non-zero status; a time never does.
#
# usage: bench/coins.sh [SEED]
. "$(dirname "$0")/programs.sh"

# Proves and builds the program, and runs it on the small files of its folder data/.
built fund_cli coins data/wallet.json data/blocks.dat

load
first=
for coins in 10000 100000; do
    wallet=$folder/wallet.json
    blocks=$folder/blocks.dat
    made=$(python3 "$top/bench/make_coins.py" "$wallet" "$blocks" --seed "${1:-1}" --coins "$coins")
    taken=$(best 3 0 "$folder/printed.txt" "$program" coins "$wallet" "$blocks")
    # each block but the first spends a coin of the one before it
    read -r _ height _ <"$folder/printed.txt"
    printed="$(($(grep -c '^coin ' "$folder/printed.txt") + height - 1)) coins, $height blocks"
    [ "$printed" = "$made" ] || { echo "made: $made; printed: $printed" >&2; exit 1; }
    echo "$made: $(seconds "$taken") s, $(memory "$taken") MiB of memory"
    first=${first:-$(seconds "$taken")}
done
awk -v a="$first" -v b="$(seconds "$taken")" 'BEGIN { printf "times:  %.1f\n", b / a }'
