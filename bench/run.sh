#!/usr/bin/env bash
# Runs all measurements in one go, on inputs made from seeds, and writes them as one table into bench/RESULTS.md, after
# its head: what is before "## The tables" is written by hand and stays.
# The peers are Debian's packages: apt-get install minisat cryptominisat cadical valgrind time gcc
# usage: bench/run.sh [FILE [LANES]]     (more than an hour in one lane once the program is built; nothing else should run meanwhile)
# With more lanes so many scripts run side by side: each row still compares what one script ran one after the other. One of them,
# limits.sh, takes up to 12 GB of memory.
set -euo pipefail
source "$(dirname "$0")/common.sh"
need minisat cryptominisat5 cadical valgrind gcc /usr/bin/time
build
results=${1:-$here/RESULTS.md} lanes=${2:-1}
scripts=(families inprocess solve parities trim foreign hostile memory limits propagate elab check recover affine blast slot reader rows)

# The version of a Debian package.
version() {
    echo "$1 $(dpkg-query -W -f '${Version}' "$1")"
}

# Rows without those whose times are all below 0.02 s, which the clock hardly tells apart, unless they tell instructions or memory.
without_short_runs() {
    awk '
        /instructions|bytes a variable/ { print; next }
        {
            rest = $0; times = longest = 0
            while (match(rest, /[0-9]+(\.[0-9]+)? s[^a-z]/)) {
                taken = substr(rest, RSTART, RLENGTH) + 0
                times++
                if (taken > longest) longest = taken
                rest = substr(rest, RSTART + RLENGTH)
            }
        }
        !times || longest >= 0.02'
}

# The longest come first. Each writes its rows into a file of its own.
load=$(cut -d' ' -f1 /proc/loadavg)
printf '%s\n' "${scripts[@]}" | xargs -P "$lanes" -I NAME bash -c "'$here'/*/NAME.sh > '$work/NAME.rows' || { echo 'NAME.sh failed' >&2; exit 1; }"

{
    sed '/^## The tables/,$d' "$results"
    cat <<TEXT
## The tables

Made by \`bench/run.sh\` in one run, $lanes of its scripts at a time. Times are processor time of whole processes, one run each (the reader: the best of
five; elaborating, trimming and random parities' solutions: the least of fifteen). A ratio is cxsat's number over that of what is beside it: below 1
cxsat took less, but in the row of propagation, where above 1 it did more. Where a peer was cut off, the ratio is over the limit and so an upper bound.
The last column says how cxsat is beside other solvers; from 0.9 to 1.1 is level.

- date: $(date -u +%F), commit $(git -C "$here" rev-parse --short HEAD)
- processor: $(lscpu | sed -n 's/^Model name: *//p'), $(nproc) processors; load before the run $load
- built by: $(rt version | head -n 1)
- beside it: $(version minisat), $(version cadical), $(version cryptominisat), $(gcc --version | head -n 1) with -O2

TEXT
    for script in reader check elab trim slot foreign solve families inprocess parities affine blast recover propagate memory limits rows; do
        cat "$work/$script.rows"
    done | without_short_runs | "$here/table.py"
    echo
    echo "Texts at the limits (\`bench/hostile/hostile.sh\`): $(grep -c '^as wanted' "$work/hostile.rows") tried, $(tail -n 1 "$work/hostile.rows")."
} > "$work/results"
cp "$work/results" "$results"
echo "written: $results"
