#!/usr/bin/env bash
# Times the recovery of parities beside the reading of the same formula: random 3-clauses, where nothing is recovered, and
# ladders and systems of parities as clauses, where each clause is needed. Both are timed in one process, the best of ROUNDS.
# usage: bench/measure/recover.sh [ROUNDS]
# The program is proved, built and run in a folder of its own; it takes a few minutes where nothing was proved before.
set -euo pipefail
source "$(dirname "$0")/../common.sh"
rounds=${1:-5}
stand_on recover_times cx_base cnfx_reader xor_recover
first_run

# The least microseconds of reading and of recovery, and the number of parities, of so many runs on a formula.
least() {
    for _ in $(seq "$rounds"); do
        out/recover_times "$1"
    done | awk '$1 == "round" { if (!n++ || $2 < read) read = $2; if (n == 1 || $3 < own) own = $3; count = $4 } END { print read, own, count }'
}

measure() {
    local what=$1 read own count
    read -r read own count <<< "$(least "$work/formula")"
    row 'recovering parities' "$what, $(megabytes "$work/formula"): $count found" "$(awk -v t="$own" 'BEGIN { printf "%.1f ms", t / 1000 }')" "reading: $(awk -v t="$read" 'BEGIN { printf "%.1f ms", t / 1000 }')" "$(ratio "$own" "$read")"
}

for clauses in 10000 100000 1000000; do
    awk -v seed=1 -v clauses="$clauses" -v vars=$((clauses * 3 / 10)) -f "$here/make/clauses.awk" > "$work/formula"
    measure "$clauses random 3-clauses"
done
for size in 1250 12500 125000; do
    awk -v kind=ladder -v size="$size" -v seed=1 -f "$here/make/instance.awk" > "$work/formula"
    measure "$((size * 8)) clauses of a ladder"
done
awk -v kind=system -v size=208333 -v seed=1 -f "$here/make/instance.awk" > "$work/formula"
measure '999996 clauses of a system of parities'
