#!/usr/bin/env bash
# Times `cxsat elab` on a log and on the same log with moves of ids in it, whose proofs must be the same byte by byte: on logs that
# `solve` writes with moves drawn by bench/make/moves.py, the longest of a million steps, and on logs of a million steps every tenth of which
# moves a hundred ids, one of an implication chain with the least steps that there are and one of pigeonholes whose clauses are wide. Each is measured at half its
# size too. With another program of the same commands in BEFORE its instructions on the logs without moves are beside.
# usage: [BEFORE=PROGRAM] bench/measure/moves.sh [CHAIN [HOLES]]
set -euo pipefail
source "$(dirname "$0")/../common.sh"
need valgrind
build

# The least processor times of elaborating both logs, in five runs of each, turn about: the user's and the system's together.
least() {
    local log TIMEFORMAT='%U %S'
    for _ in {1..5}; do
        for log in plain moved; do
            # To empty a file that is there takes the system time that is no part of elaborating.
            rm -f "$work/$log.proof"
            { time "$program" elab "$work/formula" "$work/$log.log" "$work/$log.proof" > "$work/answer" 2>&1; } 2>&1
            answered 's ELABORATED'
        done
    done | awk '{ taken = $1 + $2; which = NR % 2; if (NR < 3 || taken < best[which]) best[which] = taken } END { printf "%.3f %.3f", best[1], best[0] }'
}

# How many millions of instructions a program takes to elaborate the log without moves.
counted() {
    { valgrind --tool=callgrind --callgrind-out-file=/dev/null "$1" elab "$work/formula" "$work/plain.log" "$work/counted" 2>&1 > /dev/null || true; } |
        awk '/refs:/ { gsub(",", "", $NF); printf "%.1f", $NF / 1e6 }'
    rm -f "$work/counted"
}

# A row for the log of the formula, with moves drawn so.
judge() {
    local what=$1 both plain moved before now
    shift
    python3 "$here/make/moves.py" "$@" < "$work/plain.log" > "$work/moved.log"
    both=$(least)
    cmp "$work/plain.proof" "$work/moved.proof" || { echo "moves.sh: $what: with moves the proof is another" >&2; exit 1; }
    read -r plain moved <<< "$both"
    row 'elaborating moves' \
        "$what: $(wc -l < "$work/moved.log") steps, $(grep -c ^r "$work/moved.log") of them moves, $(megabytes "$work/plain.log") without them, $(megabytes "$work/moved.log") with them" \
        "$moved s" "without moves: $plain s" "$(ratio "$moved" "$plain")"
    [ -n "${BEFORE:-}" ] || return 0
    now=$(counted "$program")
    before=$(counted "$BEFORE")
    row 'elaborating no moves' "$what" "$now million instructions" "before: $before million" "instructions $(ratio "$now" "$before")"
}

# The log that `solve` writes of a refutation.
own() {
    local what=$1 kind=$2 size=$3 seed=$4
    awk -v kind="$kind" -v size="$size" -v seed="$seed" -f "$here/make/instance.awk" > "$work/formula"
    "$program" solve "$work/formula" --proof "$work/plain.log" --conflicts 1000000000 > "$work/answer" || true
    answered 's UNSATISFIABLE'
    judge "own log, $what $size" "$seed"
    judge "own log, $what $size, a hundred ids a move" "$seed" 9 100
}

measure() {
    local what=$1 kind=$2 size=$3
    awk -v kind="$kind" -v size="$size" -v formula="$work/formula" -v proof="$work/hinted" -f "$here/make/proof.awk"
    awk -v hints=1 -f "$here/make/log_of_proof.awk" "$work/formula" "$work/hinted" > "$work/plain.log"
    judge "$what $size, a hundred ids a move" 1 9 100
}

own 'random 3-clauses, variables:' random 200 3
own 'random 3-clauses, variables:' random 280 4
own 'pigeonholes:' holes 7 1
own 'parities and clauses, variables:' mixed 200 200
own 'ladder as clauses, rungs:' ladder 1000 1
chain=${1:-450000} holes=${2:-14}
measure 'implication chain' chain $((chain / 2))
measure 'implication chain' chain "$chain"
measure pigeonholes holes $((holes - 1))
measure pigeonholes holes "$holes"
