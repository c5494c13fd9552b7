#!/usr/bin/env bash
# Times `cxsat trim` beside `cxsat check` on the proofs of the logs of elab.sh and of foreign.sh, those with their hints, and tells which
# share of the steps and of the formula's constraints stays, and the memory beside the proof's bytes. What is left must be accepted, and
# trimmed again it must stay as it is, with the same core. Last comes a proof of which a thousandth is needed: just that must be left.
# usage: bench/measure/trim.sh [NEEDED [CHAIN [HOLES [HOLES_WITHOUT_HINTS]]]]
# NEEDED: the needed steps of that proof (20,000, and then it has a gigabyte). The other numbers are those of elab.sh.
set -euo pipefail
source "$(dirname "$0")/../common.sh"
source "$here/measure/logs.sh"
need cryptominisat5 /usr/bin/time
build
limit=300 clock='%U %S'

trimming() { "$program" trim "$work/formula" "$work/proof" "$work/trimmed"; }
checking() { "$program" check "$work/formula" "$work/proof"; }

# So many of so many, as "N (P %)".
share() {
    awk -v part="$1" -v whole="$2" 'BEGIN { printf "%d (%.1f %%)", part, (whole > 0 ? 100 * part / whole : 0) }'
}

# The row of a proof, whose core is in $work/told: what it is, the seconds and megabytes of `trim`, those of `check`. What the
# program takes by itself leaves no ratio of memory for a proof of less than a megabyte.
tell() {
    local what=$1 taken=$2 memory=$3 checked=$4 check_memory=$5 steps core constraints bytes
    steps=$(wc -l < "$work/proof")
    core=$(awk '/^c core / { n += NF - 4 } END { print n + 0 }' "$work/told")
    constraints=$(awk '{ print $4; exit }' "$work/formula")
    bytes=$(wc -c < "$work/proof" | awk '{ print $1 < 1e6 ? 0 : $1 / 1e6 }')
    row 'trimming a proof' \
        "$what: $steps steps, $(megabytes "$work/proof"); $(share "$(wc -l < "$work/trimmed")" "$steps") and $(share "$core" "$constraints") of $constraints constraints stay" \
        "$taken s, $memory MB" "check: $checked s, $check_memory MB" "$(ratio "$taken" "$checked"), memory over the proof $(ratio "$memory" "$bytes")"
}

# Ends the script unless what is left of the proof is accepted, and stays as it is where it is trimmed again.
stays() {
    "$program" check "$work/formula" "$work/trimmed" > "$work/answer" || true
    answered 's VERIFIED'
    "$program" trim "$work/formula" "$work/trimmed" "$work/again" > "$work/answer" || true
    answered 's TRIMMED'
    cmp -s "$work/trimmed" "$work/again" && cmp -s "$work/told" "$work/answer" || { echo "trim.sh: $1: trimmed again it is another" >&2; exit 1; }
}

# A row for the proof that `elab` makes of the log.
judge() {
    local what=$1 memory check_memory both taken checked
    "$program" elab "$work/formula" "$work/log" "$work/proof" > "$work/answer" || true
    answered 's ELABORATED'
    read -r _ check_memory _ <<< "$(run "$program" check "$work/formula" "$work/proof")"
    read -r _ memory _ <<< "$(run "$program" trim "$work/formula" "$work/proof" "$work/trimmed")"
    answered 's TRIMMED'
    mv "$work/answer" "$work/told"
    stays "$what"
    both=$(least_of_both "$work/trimmed" trimming 's TRIMMED' checking 's VERIFIED')
    read -r taken checked <<< "$both"
    tell "$what" "$taken" "$memory" "$checked" "$check_memory"
}

judge_foreign() {
    judge "log of cryptominisat5, $1"
}

# A row for a proof of which one step in 999 is needed.
sparse() {
    local needed=$1 taken memory checked check_memory
    awk -v kind=sparse -v size="$needed" -v formula="$work/formula" -v proof="$work/proof" -v left="$work/left" -f "$here/make/proof.awk"
    read -r checked check_memory _ <<< "$(run "$program" check "$work/formula" "$work/proof")"
    answered 's VERIFIED'
    read -r taken memory _ <<< "$(run "$program" trim "$work/formula" "$work/proof" "$work/trimmed")"
    answered 's TRIMMED'
    cmp -s "$work/trimmed" "$work/left" || { echo 'trim.sh: of the sparse proof another part is left than is needed' >&2; exit 1; }
    mv "$work/answer" "$work/told"
    stays 'the sparse proof'
    tell 'a chain among steps that nothing needs' "$taken" "$memory" "$checked" "$check_memory"
}

own_logs "${2:-250000}" "${3:-11}" "${4:-7}"
foreign_logs
limit=1800
sparse "${1:-20000}"
