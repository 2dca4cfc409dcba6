# Sourced by the benchmarks: a folder that goes when they end, and the programs that they time.
set -euo pipefail
export LC_ALL=C

top=$(cd "$(dirname "${BASH_SOURCE[0]}")/.." && pwd)
folder=$(mktemp -d)
trap 'rm -rf "$folder"' EXIT

# built CRATE WORDS..: proves and builds the program of a crate, and runs it with these words in the crate's folder. What it
# prints is in small.txt, and `program` is its path.
built() {
    program=$top/crates/$1/out/$1
    cd "$top/crates/$1"
    rt run -- "${@:2}" >"$folder/small.txt" 2>"$folder/build.log" || { cat "$folder/build.log" >&2; exit 1; }
    [ -s "$folder/small.txt" ]
}

# stored CRATE WORDS..: the same, and what it prints stands in its stored output
stored() {
    built "$@"
    grep -qxF "$(cat "$folder/small.txt")" stdout
}

# best RUNS STATUS FILE COMMAND..: the least processor time of so many runs in seconds, and the greatest memory in MiB, as two words.
# Each must end with this status; FILE has what the last one prints.
best() {
    python3 "$top/bench/timing.py" "$@"
}

# seconds TAKEN, memory TAKEN: the first and the second of these words
seconds() { echo "${1% *}"; }
memory() { echo "${1#* }"; }

# load: that of the system, and how many processors it has
load() {
    echo "load:   $(cut -d' ' -f1-3 /proc/loadavg) on $(nproc) processors"
}
