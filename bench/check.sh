#!/usr/bin/env bash
# Times `check` of a report and its log by crates/fund_cli beside the `fund` that made them: of a payment that nothing pays,
# where next to all is search, and of payments from 10,000 coins over 1 MiB and 64 MiB of blocks. Prints the report's first
# lines, the best processor time of five runs of each, and their ratio. A step that fails ends it with a non-zero status; a
# time never does.
#
# usage: bench/check.sh
. "$(dirname "$0")/programs.sh"

# Proves and builds the program, and runs it on a small file of its folder data/.
built fund_cli coins data/wallet.json data/blocks.dat
cd "$folder"

# judge WHAT STATUS: times both, where `fund` ends with this status
judge() {
    local fund check
    fund=$(best 5 "$2" report "$program" fund wallet.json blocks.dat request.json log)
    check=$(best 5 0 said "$program" check wallet.json blocks.dat request.json report log)
    [ "$(head -1 said)" = accepted ]
    awk -v what="$1" -v report="$(grep -E '^(none|funded|tries)' report | paste -sd' ')" -v fund="$(seconds "$fund")" -v check="$(seconds "$check")" \
        'BEGIN { printf "%s, %s: fund %.1f ms, check %.1f ms, ratio %.2f\n", what, report, 1000 * fund, 1000 * check, check / fund }'
}

load
python3 "$top/bench/make_none.py" wallet.json blocks.dat request.json 23
judge "23 coins" 11
for bytes in 1048576 67108864; do
    python3 "$top/bench/make_fund.py" wallet.json blocks.dat request.json --method changeless --tries 10000000 --bytes "$bytes" >made.txt
    judge "10,000 coins, $bytes bytes of blocks" 0
done
