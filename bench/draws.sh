#!/usr/bin/env bash
# Times draws among 1,000 and 10,000 items by crates/bench_all, beside a plain shuffle and fold in Rust (bench/peers/draw.rs),
# under a limit that all items meet, half of them, a twentieth, and none. Prints the best of five processor times of a draw
# each, in microseconds. A step that fails ends it with a non-zero status; a time never does.
#
# usage: bench/draws.sh
. "$(dirname "$0")/programs.sh"

# Proves and builds the program, draws among a few items, and builds the peer.
stored bench_all draw 1000 500 3
rustc -O "$top/bench/peers/draw.rs" -o "$folder/peer"

# least COMMAND..: the least processor time of five runs, in seconds
least() {
    local taken
    taken=$(best 5 0 /dev/null "$@")
    seconds "$taken"
}

load
for part in 1 2 20 0; do
    for count in 1000 10000; do
        kept=0
        if [ "$part" -gt 0 ]; then kept=$((count / part)); fi
        seeds=$((2000000 / count))
        ours=$(least "$program" draw "$count" "$kept" "$seeds")
        peer=$(least "$folder/peer" "$count" "$kept" "$seeds")
        awk -v count="$count" -v kept="$kept" -v ours="$ours" -v peer="$peer" -v seeds="$seeds" 'BEGIN {
            printf "%5d items, %5d of them within the limit: draw %.1f us, plain %.1f us\n", count, kept, ours / seeds * 1e6, peer / seeds * 1e6 }'
    done
done
