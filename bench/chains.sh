#!/usr/bin/env bash
# Times payments and listings over 25,000 pending transactions that wait in chains of 25, and in one chain, with prices at 10
# satoshi per virtual byte; and `coins` over one chain of 99,800, beside the reading of the same wallet file, after which
# `coins` stops where there is no block file. Prints the best of three each, in seconds of a processor. A step that fails ends
# it with a non-zero status; a time never does.
#
# usage: bench/chains.sh FUND_CLI NINELACE      (the programs that the gate built)
. "$(dirname "$0")/programs.sh"

fund_cli=$(realpath "$1")
ninelace=$(realpath "$2")
cd "$folder"

# least STATUS WORDS..: the least seconds of three times of a command, which must end by that status
least() {
    local taken
    taken=$(best 3 "$1" printed.txt "${@:2}")
    seconds "$taken"
}

load
: >blocks.dat
cat >request.json <<'REQUEST'
{"recipients": [{"script": "0014bbbbbbbbbbbbbbbbbbbbbbbbbbbbbbbbbbbbbbbb", "amount": 50000}], "rate": 10000, "method": "auto",
"seed": "0000000000000000000000000000000000000000000000000000000000000000", "zero_conf": true, "include_unsafe": true}
REQUEST
for chain in 25 25000; do
    made=$(python3 "$top/bench/make_states.py" wallet.json --coins 1000 --payments 25000 --chain "$chain")
    status=0
    "$fund_cli" fund wallet.json blocks.dat request.json log.txt >printed.txt || status=$?
    funded=$(least "$status" "$fund_cli" fund wallet.json blocks.dat request.json log.txt)
    listed=$(least 0 "$ninelace" coins wallet.json blocks.dat --fee-rate 10)
    echo "$made: funded with status $status in $funded s, listed with prices in $listed s"
done
made=$(python3 "$top/bench/make_states.py" wallet.json --coins 200 --payments 99800 --chain 99800)
echo "$made: read in $(least 4 "$fund_cli" coins wallet.json none.dat) s, listed in $(least 0 "$fund_cli" coins wallet.json blocks.dat) s"
