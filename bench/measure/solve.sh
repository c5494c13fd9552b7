#!/usr/bin/env bash
# Times `cxsat solve` beside `minisat` (formulas of clauses alone) and `cryptominisat5`, Debian's packages: processor time,
# the peak of memory and the conflicts that each counts, by family at growing sizes. Each log of an unsatisfiable formula
# is elaborated and the proof checked. A run that takes longer than LIMIT seconds is cut off.
# usage: bench/measure/solve.sh [LIMIT]
set -euo pipefail
source "$(dirname "$0")/../common.sh"
need minisat cryptominisat5 /usr/bin/time
build
limit=${1:-60}

# What a run took, in words: its seconds, megabytes, status and conflicts.
took() {
    if [ "$3" = 124 ]; then echo "cut off at $1 s"; else echo "$1 s, $2 MB, $4 conflicts"; fi
}

# A row that sets cxsat's run beside a peer's: the peer's name, its seconds, megabytes, status and conflicts.
beside() {
    agree "$what" "$1" "$status" "$4"
    row 'solving' "$what" "$(took "$own" "$own_memory" "$status" "$own_conflicts")" "$1: $(took "$2" "$3" "$4" "$5")" "$(ratio "$own" "$2")"
}

measure() {
    local family=$1 kind=$2 size=$3 formula=$work/formula what own own_memory own_conflicts status taken memory peer
    case $kind in
        even | odd) "$here/make/planted.py" "$kind" "$size" "$size" > "$formula" ;;
        *) awk -v kind="$kind" -v size="$size" -v seed="$size" -f "$here/make/instance.awk" > "$formula" ;;
    esac
    read -r own own_memory status <<< "$(run "$program" solve "$formula" --proof "$work/log" --conflicts 1000000000)"
    own_conflicts=$(grep -c '^c conflict' "$work/log" || true)
    what="$family $size (status $status)"
    case $kind in
        parity | even | odd | mixed) ;;
        *)
            read -r taken memory peer <<< "$(run minisat "$formula")"
            beside minisat "$taken" "$memory" "$peer" "$(awk '/^conflicts/ { print $3 }' "$work/answer")"
            ;;
    esac
    read -r taken memory peer <<< "$(run cryptominisat5 --verb 1 "$formula")"
    beside cryptominisat5 "$taken" "$memory" "$peer" "$(awk '/^c conflicts/ { print $4; exit }' "$work/answer")"
    if [ "$status" = 20 ]; then
        taken=$(seconds "$program" elab "$formula" "$work/log" "$work/proof")
        answered 's ELABORATED'
        row 'elaborating its log' "$what: log $(megabytes "$work/log"), proof $(megabytes "$work/proof")" "$taken s" "solving: $own s" "$(ratio "$taken" "$own")"
        taken=$(seconds "$program" check "$formula" "$work/proof")
        answered 's VERIFIED'
        row 'checking its proof' "$what" "$taken s" "solving: $own s" "$(ratio "$taken" "$own")"
    fi
}

# Parities as clauses beside the same ones as x-lines.
hidden() {
    local family=$1 kind=$2 size=$3 own own_memory status shown shown_memory shown_status own_conflicts
    awk -v kind="$kind" -v size="$size" -v seed="$size" -f "$here/make/instance.awk" > "$work/formula"
    read -r own own_memory status <<< "$(run "$program" solve "$work/formula" --proof "$work/log" --conflicts 1000000000)"
    own_conflicts=$(grep -c '^c conflict' "$work/log" || true)
    awk -v kind="$kind" -v size="$size" -v seed="$size" -v form=x -f "$here/make/instance.awk" > "$work/formula"
    read -r shown shown_memory shown_status <<< "$(run "$program" solve "$work/formula" --proof "$work/log" --conflicts 1000000000)"
    [ "$status" = "$shown_status" ] || { echo "solve.sh: $family $size: status $status as clauses, $shown_status as x-lines" >&2; exit 1; }
    row 'parities found in clauses' "$family $size (status $status)" "$(took "$own" "$own_memory" "$status" "$own_conflicts")" \
        "as x-lines: $(took "$shown" "$shown_memory" "$shown_status" "$(grep -c '^c conflict' "$work/log" || true)")" "$(ratio "$own" "$shown")"
}

for size in 150 200 250; do measure 'random 3-clauses, variables:' random "$size"; done
for size in 7 8 9; do measure 'pigeonholes, holes:' holes "$size"; done
for size in 8 50 100 200 400; do measure 'ladder (Urquhart), rungs:' ladder "$size"; done
for size in 100 200; do measure 'parities as clauses, variables:' system "$size"; done
for size in 200 400 800; do measure 'inconsistent parities:' parity "$size"; done
for size in 500 1000 2000; do measure 'planted (`demo even`), size:' even "$size"; measure 'planted (`demo odd`), size:' odd "$size"; done
for size in 200 250; do measure 'parities and clauses, variables:' mixed "$size"; done
for size in 1000 10000; do hidden 'ladder (Urquhart), rungs:' ladder "$size"; done
for size in 400 1600; do hidden 'system, variables:' system "$size"; done
