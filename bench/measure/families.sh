#!/usr/bin/env bash
# Formulas of some twenty families, so many seeds each, solved by `cxsat solve` and by Debian's `minisat`, `cadical` and `cryptominisat5`,
# this one as it comes and with its bounds on matrices lifted: how many are solved in LIMIT seconds, the sum of processor
# time, in which a run that is cut off counts as LIMIT, and the most memory of a run that was not. `minisat` and `cadical` get
# parities as clauses, by `cxsat blast`. Where a family has one answer, other answers end the script with 1, and so does a peer's
# answer that differs from ours.
# A hundred thousand parities of three or four variables come last, as x-lines, one formula of each kind: beside
# `cryptominisat5` with its bounds lifted alone, in 20 s.
# usage: bench/measure/families.sh [SEEDS [LIMIT [FAMILY..]]]     (5, 20, all)
set -euo pipefail
source "$(dirname "$0")/../common.sh"
need minisat cryptominisat5 cadical python3 /usr/bin/time
build
seeds=${1:-5} limit=${2:-20}
shift $(($# < 2 ? $# : 2))
chosen=" $* "
solvers=(cxsat minisat cadical cryptominisat5 'cryptominisat5, bounds lifted')

solve() {
    case $1 in
        cxsat) run "$program" solve "$work/formula" --proof "$work/log" --conflicts 1000000000 ;;
        minisat | cadical) run "$1" "$work/clauses" ;;
        cryptominisat5) run cryptominisat5 --verb 0 "$work/formula" ;;
        *) run cryptominisat5 --verb 0 "${lifted[@]}" "$work/formula" ;;
    esac
}

# Solves the formula by each, and adds a line of what each took: its name, seconds, status and megabytes.
solve_by_all() {
    local solver taken memory status ours=124
    "$program" blast "$work/formula" "$work/clauses" > "$work/answer"
    for solver in "${solvers[@]}"; do
        read -r taken memory status <<< "$(solve "$solver")"
        [ "$solver" != cxsat ] || ours=$status
        agree "$1" "$solver" "$ours" "$status"
        case $status in
            10 | 20) [ "$2" = any ] || [ "$2" = "$status" ] || { echo "families.sh: $1: $solver ended with $status" >&2; exit 1; } ;;
            *) status=124 taken=$limit memory=0 ;;
        esac
        echo "$solver;$taken;$status;$memory" >> "$work/taken"
    done
}

# How many were solved, the sum of seconds, and the most megabytes.
sum() {
    awk -F ';' -v name="$1" '$1 == name { taken += $2; solved += $3 != 124; if ($4 > most) most = $4 }
        END { printf "%d in %.1f s, %s", solved, taken, solved ? most " MB" : "cut off" }' "$work/taken"
}

# A family: its name in words, how it is made (a word of `draw` and a kind), its size, and its answer.
measure() {
    local words=$1 maker=$2 kind=$3 size=$4 wanted=$5 seed solver
    [ "$chosen" = '  ' ] || [[ $chosen = *" $kind "* ]] || return 0
    : > "$work/taken"
    for ((seed = 1; seed <= seeds; seed++)); do
        draw "$maker" "$kind" "$size" "$seed"
        solve_by_all "$words $size, seed $seed" "$wanted"
    done
    for solver in "${solvers[@]:1}"; do
        row 'solving, sums' "$words $size, $seeds formulas" "$(sum cxsat)" "$solver: $(sum "$solver")" \
            "$(ratio "$(sum cxsat | awk '{ print $3 }')" "$(sum "$solver" | awk '{ print $3 }')")"
    done
}

measure 'random 3-clauses near the threshold, variables:' awk random 200 any
measure 'random 3-clauses near the threshold, variables:' awk random 250 any
measure 'parities and clauses, variables:' awk mixed 250 any
measure 'parities and clauses, variables:' awk mixed 300 any
measure 'pigeonholes, holes:' awk holes 8 20
measure 'parities in a chain:' awk chain 20000 10
measure 'ladder of parities as clauses, rungs:' awk ladder 5000 20
measure 'torus of parities, nodes a side:' python grid 60 20
measure 'inconsistent parities as clauses, variables:' awk system 1000 20
measure 'noisy parities, secret bits:' python noise 28 10
measure 'hashed random clauses, variables:' python hashing 90 any
measure 'hashed queens, queens:' python queens 12 any
measure 'stream cipher, bits a register:' python stream 18 10
measure 'block cipher, rounds:' python block 7 10
measure 'factors, bits:' python factors 18 10
measure 'multipliers compared, bits:' python multiply 7 20
measure 'adders compared, bits:' python adders 128 20
measure 'counters unrolled with parities, steps:' python counters 20 20

# The system's time counts here, since pages of large matrices are its work.
seeds=1 limit=20 clock='%U %S' solvers=(cxsat 'cryptominisat5, bounds lifted')
measure 'parities in a chain:' x chain 100000 10
measure 'ladder of parities as x-lines, rungs:' x ladder 50000 20
measure 'torus of parities, nodes a side:' python grid 317 20
