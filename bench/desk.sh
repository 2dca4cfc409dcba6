#!/usr/bin/env bash
# Times scripts at a desk by crates/fund_cli. First what open jobs take: on the wallet of `work 1 10000`, a script that opens
# one job, and one that opens 64. Then turns: a job of 28 coins that nothing pays makes 2,000,000 tries in turns of 50, in
# turns of 50,000 and in one. Last commits, of payments drawn from 1,000 and from 10,000 coins: a script of 10 that are
# committed, beside the same where each job is closed in place of that. Prints processor time, the best of three, and the
# greatest memory. A step that fails ends it with a non-zero status; a time never does.
#
# usage: bench/desk.sh
. "$(dirname "$0")/programs.sh"

# Proves and builds the program, and runs it on a small file of its folder data/.
built fund_cli coins data/wallet.json data/blocks.dat
cd "$folder"

# timed WHAT LINE: does `script` three times; LINE is the last that it has to print
timed() {
    local taken
    taken=$(best 3 0 printed "$program" desk wallet.json blocks.dat script)
    tail -n 1 printed | grep -q "^$2" || { tail -n 3 printed >&2; exit 1; }
    echo "$1: $(seconds "$taken") s, $(memory "$taken") MiB"
}

# repeat COUNT WORDS: so many lines, in which N is the number of the line
repeat() {
    awk -v count="$1" -v words="$2" 'BEGIN { for (n = 1; n <= count; n++) { line = words; gsub("N", n, line); print line } }'
}

load
python3 "$top/bench/make_work.py" wallet.json blocks.dat request.json 1 10000
echo "close a" >script
timed "10,000 coins, no job" "no-job a"
for jobs in 1 64; do
    repeat "$jobs" "open jN request.json" >script
    timed "10,000 coins, jobs opened: $jobs" "opened j$jobs"
done

python3 "$top/bench/make_none.py" wallet.json blocks.dat request.json 28
sed -i 's/"tries": 10000000/"when_unfinished": "stop"/' request.json
for tries in 50 50000 2000000; do
    { echo "open a request.json"; repeat $((2000000 / tries)) "turn a $tries"; } >script
    timed "28 coins, 2,000,000 tries in turns of $tries" "unfinished a 2000000"
done

for coins in 1000 10000; do
    python3 "$top/bench/make_work.py" wallet.json blocks.dat request.json 1 "$coins"
    sed -i 's/"amount": [0-9]*/"amount": 9000000/; s/"rate"/"method": "draw", "rate"/' request.json
    repeat 10 "open jN request.json;turn jN 1;close jN" | tr ';' '\n' >script
    timed "$coins coins, 10 jobs closed" "closed j10"
    sed -i 's/close/commit/' script
    timed "$coins coins, 10 jobs committed" "committed j10"
done
