#!/usr/bin/env bash
# What in-processing is worth: formulas of a dozen families, so many seeds each, solved with `--inprocess` and without it, by turns. A row has the
# sums of conflicts and of processor time over the formulas that both solve in LIMIT seconds. Both logs are written; marks are counted in them.
# usage: bench/measure/inprocess.sh [SEEDS [LIMIT]]     (5, 60)
set -euo pipefail
source "$(dirname "$0")/../common.sh"
need python3 /usr/bin/time
build
seeds=${1:-5} limit=${2:-60}

# Seconds, conflicts and status of a search, as "S CONFLICTS STATUS".
search() {
    local taken memory status
    read -r taken memory status <<< "$(run "$program" solve "$work/formula" --proof "$work/log" --conflicts 1000000000 "$@")"
    echo "$taken $(grep -c '^c conflict ' "$work/log" || true) $status"
}

# A family: its name in words, how it is made (a file of make/ and a kind), and its size.
measure() {
    local words=$1 maker=$2 kind=$3 size=$4 seed plain tidied
    : > "$work/taken"
    for ((seed = 1; seed <= seeds; seed++)); do
        draw "$maker" "$kind" "$size" "$seed"
        plain=$(search)
        tidied=$(search --inprocess)
        echo "$plain $tidied" >> "$work/taken"
    done
    awk -v words="$words $size" -v seeds="$seeds" '
        ($3 == 10 || $3 == 20) && $3 == $6 { both++; time += $1; conflicts += $2; tidied += $4; fewer += $5 }
        END {
            printf "| in-processing, time | %s, %d of %d formulas | %.2f s | without it: %.2f s | %.2f |\n", words, both, seeds, tidied, time, time ? tidied / time : 0
            printf "| in-processing, conflicts | %s, %d of %d formulas | %d | without it: %d | %.2f |\n", words, both, seeds, fewer, conflicts, conflicts ? fewer / conflicts : 0
        }' "$work/taken"
}

measure 'random 3-clauses near the threshold, variables:' awk random 200
measure 'random 3-clauses near the threshold, variables:' awk random 250
measure 'parities and clauses, variables:' awk mixed 300
measure 'pigeonholes, holes:' awk holes 8
measure 'noisy parities, secret bits:' python noise 28
measure 'hashed random clauses, variables:' python hashing 90
measure 'hashed queens, queens:' python queens 12
measure 'stream cipher, bits a register:' python stream 18
measure 'block cipher, rounds:' python block 7
measure 'factors, bits:' python factors 18
measure 'multipliers compared, bits:' python multiply 7
measure 'adders compared, bits:' python adders 128
measure 'counters unrolled with parities, steps:' python counters 20
