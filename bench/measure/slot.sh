#!/usr/bin/env bash
# Times the reading of a proof's steps and its check over a slot, piece by piece, beside the same over a slice of the whole text,
# and the check of a chain beside the reading of its steps. Both are timed in one process, the best of ROUNDS.
# usage: bench/measure/slot.sh [CHAIN [HOLES [ROUNDS]]]     (1,000,000 steps of a chain, 14 pigeonholes, 5)
# The slot is that of a desk in memory. The program is proved, built and run in a folder of its own; it takes a few minutes where
# nothing was proved before.
set -euo pipefail
source "$(dirname "$0")/../common.sh"
chain=${1:-1000000} holes=${2:-14} rounds=${3:-5}
stand_on steps_times cx_base cx_desk cnfx_reader step_text proof_text xlrup_check
first_run

# The least microseconds over the slice and over the slot of a kind of work, in so many runs.
least() {
    for _ in $(seq "$rounds"); do
        out/steps_times "$work/formula" "$work/proof"
    done | awk -v name="$1" '$2 == name && $5 == $6 { if (!n++ || $3 < slice) slice = $3; if (n == 1 || $4 < slot) slot = $4 } END { print slice, slot }'
}

milliseconds() {
    awk -v t="$1" 'BEGIN { printf "%.1f ms", t / 1000 }'
}

measure() {
    local what=$1 kind=$2 size=$3 slice slot read_slice read_slot
    awk -v kind="$kind" -v size="$size" -v formula="$work/formula" -v proof="$work/proof" -f "$here/make/proof.awk"
    read -r read_slice read_slot <<< "$(least reading)"
    read -r slice slot <<< "$(least check)"
    what="$what $size, $(megabytes "$work/proof")"
    row 'reading steps' "$what" "over a slot: $(milliseconds "$read_slot")" "over a slice: $(milliseconds "$read_slice")" "$(ratio "$read_slot" "$read_slice")"
    row 'checking steps' "$what" "over a slot: $(milliseconds "$slot")" "over a slice: $(milliseconds "$slice")" "$(ratio "$slot" "$slice")"
    row 'checking and reading' "$what" "check over a slot: $(milliseconds "$slot")" "reading over a slot: $(milliseconds "$read_slot")" "$(ratio "$slot" "$read_slot")"
}

measure 'implication chain' chain "$chain"
measure pigeonholes holes "$holes"
