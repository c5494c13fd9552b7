#!/usr/bin/env bash
# Times propagation by watched literals beside minisat on one random formula of clauses of three literals.
# usage: bench/measure/propagate.sh [SEED] [CLAUSES] [VARIABLES] [SECONDS] [LITERALS]
# By default: seed 1, 1,000,000 clauses over 300,000 variables, 30 seconds for minisat, and 20,000,000 literals for the
# program below. minisat is Debian's package (apt-get install minisat); without it the status is 2.
# The program decides the variables in order of number with random signs up to a conflict, begins again from an empty
# trail, and so on. It learns nothing, while minisat analyses its conflicts and propagates over learned clauses too: so
# the two do not walk through the same trails, and minisat's time has more in it than propagation. minisat does not
# simplify the formula first (-no-pre), so both propagate over the same clauses.
# Both count a decision as a propagation. minisat counts a literal when it looks at what it falsifies, the program when
# it is put on the trail: its second line leaves out what was put by calls that ended in a conflict, so the program's
# number by minisat's count is between its two. Seconds are processor time of the whole process, reading included.
# The program is proved, built and run in a folder of its own; where nothing was proved before it takes some minutes.
set -euo pipefail
source "$(dirname "$0")/../common.sh"
need minisat
seed=${1:-1}
clauses=${2:-1000000}
vars=${3:-300000}
limit=${4:-30}
literals=${5:-20000000}
if [ "$vars" -lt 3 ]; then
    echo "bench/measure/propagate.sh: a clause has three different variables" >&2
    exit 2
fi
formula="$work/formula.cnf"
awk -v seed="$seed" -v clauses="$clauses" -v vars="$vars" -f "$here/make/clauses.awk" > "$formula"
# A run of one round proves and builds the program; it is timed afterwards, alone.
stand_on propagate_times cx_base cnfx_reader cx_trail clause_arena watch_lists
first_run 1 "$formula"
# minisat's status is that of its answer, also where the time ends.
minisat -no-pre -cpu-lim="$limit" "$formula" > "$work/minisat.log" 2>&1 || true
TIMEFORMAT='%U %S'
{ time out/propagate_times "$literals" "$formula" > "$work/program.log"; } 2> "$work/program.time"
if ! grep -q '^propagations' "$work/minisat.log" || ! grep -qE '^[0-9]+( [0-9]+){4}$' "$work/program.log"; then
    cat "$work/minisat.log" "$work/program.log" >&2
    exit 1
fi
read -r watched rounds put sure millis < "$work/program.log"
seconds=$(awk '{ print $1 + $2 }' "$work/program.time")
theirs=$(awk '/^propagations/ { print $3 }' "$work/minisat.log")
their_seconds=$(awk '/^CPU time/ { print $4 }' "$work/minisat.log")
rate() { awk -v n="$1" -v s="$2" 'BEGIN { if (s > 0) printf "%.0f", n / s; else print 0 }'; }
own=$(rate "$sure" "$seconds") their=$(rate "$theirs" "$their_seconds")
row 'unit propagation' "$watched clauses of three literals over $vars variables, seed $seed: $rounds rounds in $millis ms by the clock" \
    "$own propagations a second ($(rate "$put" "$seconds") with those of calls that ended in a conflict)" "minisat: $their propagations a second" "$(ratio "$own" "$their")"

# These rounds after ten reductions, each of which found 100,000 learned clauses and left half of them: no learned clause is
# left in the end, so both walk over the same clauses.
reduced() {
    out/propagate_times "$literals" "$1" "$formula" | awk '{ printf "%.0f", $4 * 1000 / $5 }'
}
fresh=$(reduced 0) later=$(reduced 10)
row 'unit propagation' "$watched clauses of three literals, after ten reductions" "$later literals a second" "before the first: $fresh literals a second" "$(ratio "$later" "$fresh")"
