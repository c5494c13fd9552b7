#!/usr/bin/env bash
# Times `cxsat check` on proofs of four kinds, each at a size and at twice its work, beside a plain C loop that finds and
# converts the tokens of the same formula and proof.
# usage: bench/measure/check.sh [CHAIN [HOLES [WIDE [SUMS]]]]
set -euo pipefail
source "$(dirname "$0")/../common.sh"
need gcc
build
gcc -O2 -o "$work/words_loop" "$here/programs/words_loop.c"

measure() {
    local what=$1 kind=$2 size=$3 taken loop steps
    awk -v kind="$kind" -v size="$size" -v formula="$work/formula" -v proof="$work/proof" -f "$here/make/proof.awk"
    taken=$(seconds "$program" check "$work/formula" "$work/proof")
    answered 's VERIFIED'
    loop=$(seconds "$work/words_loop" "$work/formula" "$work/proof")
    steps=$(wc -l < "$work/proof")
    row 'checking a proof' "$what $size: $steps steps, $(megabytes "$work/formula" "$work/proof")" \
        "$taken s, $(awk -v n="$steps" -v s="$taken" 'BEGIN { printf "%.0f", n / s }') steps a second" "plain C loop over the tokens: $loop s" "$(ratio "$taken" "$loop")"
}

chain=${1:-500000} holes=${2:-13} wide=${3:-100000} sums=${4:-4000}
measure 'implication chain' chain "$chain"
measure 'implication chain' chain $((2 * chain))
measure pigeonholes holes "$holes"
measure pigeonholes holes $((holes + 1))
measure 'wide clauses' wide "$wide"
measure 'wide clauses' wide $((2 * wide))
measure 'sums of parities' sums "$sums"
measure 'sums of parities' sums $((2 * sums))
