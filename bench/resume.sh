#!/usr/bin/env bash
# Times jobs that are kept and gone on with, by crates/fund_cli. First `fund` with 10,000,000 tries on the wallet of
# `work 1 10000`, kept as a job: processor time and greatest memory. Then a job of 28 coins that nothing pays: three runs of
# 3,000,000 tries, and a fourth that restores 9,000,000 and makes the last 1,000,000 that a job has, beside a `fund` of
# 1,000,000 with a job and without. Then one of 26 coins, gone on with to its end, beside `check` of its report and log. Last
# what restoring took: the fourth run less the `fund` with a job; beside the check, as if of so many tries. A step that fails
# ends it with a non-zero status; a time never does.
#
# usage: bench/resume.sh
. "$(dirname "$0")/programs.sh"

# Proves and builds the program, and runs it on a small file of its folder data/.
built fund_cli coins data/wallet.json data/blocks.dat
cd "$folder"

# timed WHAT STATUS COMMAND..: its processor time, its greatest memory, and the first words that it prints
timed() {
    taken=$(best 1 "$2" printed "${@:3}")
    echo "$1: $(seconds "$taken") s, $(memory "$taken") MiB, $(grep -E '^(funded|none|unfinished|tries|accepted)' printed | paste -sd' ')"
}

load
python3 "$top/bench/make_work.py" wallet.json blocks.dat request.json 1 10000
"$program" fund wallet.json blocks.dat request.json log >report
[ "$("$program" work 1 10000 | tail -1)" = "report $(sha256sum report | cut -d' ' -f1)" ]
python3 "$top/bench/make_work.py" wallet.json blocks.dat request.json 1 10000 10000000
timed "10,000 coins, fund with a job" 10 "$program" fund wallet.json blocks.dat request.json log work
ls -l fund-jobs.sqlite | awk '{ printf "the job file: %.1f MiB\n", $5 / 1048576 }'

# job COINS TRIES: the files of a payment that nothing pays, whose request asks for so many tries and to stop
job() {
    python3 "$top/bench/make_none.py" wallet.json blocks.dat request.json "$1"
    sed -i "s/\"tries\": 10000000/\"tries\": $2, \"when_unfinished\": \"stop\"/" request.json
}

job 28 1000000
timed "28 coins, fund with 1,000,000 tries" 10 "$program" fund wallet.json blocks.dat request.json log
timed "28 coins, fund with a job, 1,000,000 tries" 10 "$program" fund wallet.json blocks.dat request.json log short
once=$(seconds "$taken")
job 28 3000000
timed "28 coins, fund with a job" 10 "$program" fund wallet.json blocks.dat request.json log open
for run in second third fourth; do
    timed "28 coins, the $run run" 10 "$program" resume wallet.json blocks.dat request.json log open
done
more=$(seconds "$taken")
job 26 3000000
timed "26 coins, fund with a job" 10 "$program" fund wallet.json blocks.dat request.json log none
timed "26 coins, the second run" 10 "$program" resume wallet.json blocks.dat request.json log none
timed "26 coins, the third run, to its end" 11 "$program" resume wallet.json blocks.dat request.json log none
cp printed report
timed "26 coins, check" 0 "$program" check wallet.json blocks.dat request.json report log
tries=$(sed -n 's/^tries //p' report)
awk -v once="$once" -v more="$more" -v check="$(seconds "$taken")" -v tries="$tries" 'BEGIN {
    printf "restoring 9,000,000 tries: %.3f s; checking a log of as many: %.3f s\n", more - once, check * 9000000 / tries
}'
