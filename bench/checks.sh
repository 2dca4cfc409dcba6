#!/usr/bin/env bash
# Times the check of closing logs of 20 million letters by crates/bench_all, beside a checker in plain Rust
# (bench/peers/checker.rs), which also makes the logs: of searches of both kinds that hadn't ended, over 100 to 10,000 items.
# Prints the best of five each, in milliseconds. Both must say the same of a log. A step that fails ends it with a non-zero
# status; a time never does.
#
# usage: bench/checks.sh
. "$(dirname "$0")/programs.sh"

# Proves and builds the program, checks a small log, and builds the peer.
stored bench_all check data/log.txt
rustc -O "$top/bench/peers/checker.rs" -o "$folder/peer"

# fastest COMMAND..: the least number of milliseconds that five runs print, as `N ms`
fastest() {
    for _ in 1 2 3 4 5; do
        "$@"
    done | grep -oE '[0-9]+ ms' | sort -n | head -1
}

# word TEXT: `ok` or `open`, as a checker says in its own words; nothing where it refuses
word() {
    grep -oiwE 'ok|open' <<<"$1" | tr A-Z a-z | head -1 || true
}

load
for kind in changeless lean; do
    for count in 100 1000 10000; do
        "$folder/peer" write "$kind" "$count" 10000000 "$folder/log.txt"
        said=$("$program" check "$folder/log.txt")
        plain=$("$folder/peer" check "$folder/log.txt")
        [ "$(word "$said")" = "$(word "$plain")" ] || { echo "they differ: $said, $plain" >&2; exit 1; }
        echo "$kind, $count items, $said: $(fastest "$program" check "$folder/log.txt" timed), plain $(best "$folder/peer" check "$folder/log.txt")"
        rm "$folder/log.txt"
    done
done
