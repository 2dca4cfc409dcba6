#!/usr/bin/env bash
# Times the pool of 25,000, 50,000 and 100,000 coins, ten to a script, by crates/bench_all, beside the items of all seven
# rows, and a sort of the same keys: the coins' scripts, and what orders the groups. Prints the best of three each, in milliseconds. A step that fails
# ends it with a non-zero status; a time never does.
#
# usage: bench/groups.sh
. "$(dirname "$0")/programs.sh"

# Proves and builds the program, and runs it on a few coins.
stored bench_all groups 1000

load
for count in 25000 50000 100000; do
    for _ in 1 2 3; do
        "$program" groups "$count" timed
    done >"$folder/printed.txt"
    awk -v count="$count" '
        $2 == "groups" { if ($1 != count / 10) { print "groups: " $1 > "/dev/stderr"; bad = 1; exit 1 } }
        $1 == "rows" { if (rows == "" || $2 < rows) rows = $2 }
        $1 == "pool" { if (pool == "" || $2 < pool) pool = $2; if (sort == "" || $5 < sort) sort = $5 }
        END { if (!bad) printf "%6d coins: pool %.1f ms, seven rows %.1f ms, sort %.1f ms\n", count, pool / 1000, rows / 1000, sort / 1000 }' "$folder/printed.txt"
done
