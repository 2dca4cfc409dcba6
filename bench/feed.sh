#!/usr/bin/env bash
# Times the reading of a whole block file by crates/bench_all beside a plain Rust reader with the same hash (bench/peers/reader.rs), and
# beside sha256sum and openssl's SHA-256 of the same file. Prints the best processor time of three runs each in seconds, the ratios, and
# the greatest memory of both readers. A step that fails ends it with a non-zero status; a time never does.
#
# usage: bench/feed.sh [SEED [BYTES]], as bench/feed.sh 1 67108864 and bench/feed.sh 1 1073700000
. "$(dirname "$0")/programs.sh"

file=$folder/blocks.dat
made=$(python3 "$top/bench/make_blocks.py" "$file" --seed "${1:-1}" --bytes "${2:-67108864}")

# Proves and builds the program, and runs it on the small file of its folder data/; builds the peer.
stored bench_all feed data/feed.dat
rustc --edition 2021 -O "$top/bench/peers/reader.rs" -o "$folder/peer"

# least TAKEN..: of these the one of the least time
least() {
    printf '%s\n' "$@" | sort -n | head -1
}

feed=() peer=() sum=() openssl=()
for _ in 1 2 3; do
    sum+=("$(best 1 0 /dev/null sha256sum "$file")")
    openssl+=("$(best 1 0 /dev/null openssl dgst -sha256 "$file")")
    feed+=("$(best 1 0 "$folder/printed.txt" "$program" feed "$file")")
    read -r printed <"$folder/printed.txt"
    peer+=("$(best 1 0 "$folder/printed.txt" "$folder/peer" "$file")")
    read -r said <"$folder/printed.txt"
    [ "$printed" = "$made" ] && [ "$said" = "$made" ] || { echo "made: $made; read: $printed, $said" >&2; exit 1; }
done
best_feed=$(least "${feed[@]}") best_peer=$(least "${peer[@]}")
best_sum=$(seconds "$(least "${sum[@]}")") best_openssl=$(seconds "$(least "${openssl[@]}")")

echo "file:       $(stat -c %s "$file") bytes, $made"
load
echo "bench_all:  $(seconds "$best_feed") s, $(memory "$best_feed") MiB"
echo "plain Rust: $(seconds "$best_peer") s, $(memory "$best_peer") MiB"
echo "sha256sum:  $best_sum s"
echo "openssl:    $best_openssl s"
awk -v feed="$(seconds "$best_feed")" -v sum="$best_sum" -v openssl="$best_openssl" -v peer="$(seconds "$best_peer")" \
    'BEGIN { printf "ratios:     %.2f to sha256sum, %.2f to openssl; plain Rust %.2f to ours\n", feed / sum, feed / openssl, peer / feed }'
