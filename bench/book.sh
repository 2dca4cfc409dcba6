#!/usr/bin/env bash
# Measures what the whole book of a desk takes, by crates/fund_cli: over blocks of payments of two inputs and two outputs each,
# 1, 16 and 64 MiB of them, a script of one line that asks for nothing of the book. Prints the processor time and the greatest
# memory, and what 64 MiB take more than 1 MiB for each transaction. With programs as words it runs these, one after another,
# and builds none. A step that fails ends it with a non-zero status; a time or a size never does.
#
# usage: bench/book.sh [PROGRAM..]
. "$(dirname "$0")/programs.sh"

programs=()
for one in "$@"; do programs+=("$(realpath "$one")"); done
if [ $# = 0 ]; then
    # Proves and builds the program, and runs it on a small file of its folder data/.
    built fund_cli coins data/wallet.json data/blocks.dat
    programs=("$program")
fi
cd "$folder"

load
for size in 1 16 64; do
    mkdir "$size"
    python3 "$top/bench/make_fund.py" "$size/wallet.json" "$size/blocks.dat" "$size/request.json" --pairs --coins 1000 --listed 10 --bytes $((size * 1024 * 1024)) >"$size/made"
    echo "close a" >"$size/script"
done
for program in "${programs[@]}"; do
    echo "$program"
    for size in 1 16 64; do
        cd "$folder/$size"
        taken=$(best 1 0 printed "$program" desk wallet.json blocks.dat script)
        grep -q "^no-job a" printed || { tail -n 3 printed >&2; exit 1; }
        count=$(grep -oE '[0-9]+ transactions' made | cut -d' ' -f1)
        echo "$size MiB, $count transactions: $(seconds "$taken") s, $(memory "$taken") MiB"
        if [ "$size" = 1 ]; then least=$(memory "$taken") few=$count; fi
    done
    awk -v least="$least" -v few="$few" -v most="$(memory "$taken")" -v many="$count" \
        'BEGIN { printf "%.0f bytes for each transaction\n", 1048576 * (most - least) / (many - few) }'
done
