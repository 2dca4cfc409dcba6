#!/usr/bin/env bash
# Times the reading of wallet files of 1, 4 and 16 MiB by `coins`, which reads the wallet and then stops, since there is no
# block file. Prints the best of three each, in processor seconds, those for a MiB, and the greatest memory. A step that fails
# ends it with a non-zero status; a time never does.
#
# usage: bench/wallet.sh [SEED]
. "$(dirname "$0")/programs.sh"

# Proves and builds the program, and runs it on the small files of its folder data/.
built fund_cli coins data/wallet.json data/blocks.dat

load
for size in 1 4 16; do
    file=$folder/wallet.json
    made=$(python3 "$top/bench/make_wallet.py" "$file" --seed "${1:-1}" --bytes $((size * 1048576)))
    taken=$(best 3 4 "$folder/printed.txt" "$program" coins "$file" "$folder/blocks.dat")
    grep -q '^fault read ' "$folder/printed.txt" || { cat "$folder/printed.txt" >&2; exit 1; }
    awk -v size="$size" -v n="$(seconds "$taken")" -v memory="$(memory "$taken")" -v made="$made" \
        'BEGIN { printf "%2d MiB: %.3f s, %.3f s a MiB, %d MiB of memory (%s)\n", size, n, n / size, memory, made }'
done
