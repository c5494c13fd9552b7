#!/usr/bin/env bash
# Measures the engines of parities and the search over parities alone, as ratios in one run:
# - assignments and backjumps a second of `Incremental` beside `Scratch`, over 200 parities of 300 variables;
# - `cxsat solve` beside `cryptominisat5`, which runs as it comes and with its bounds on matrices lifted: inconsistent parities,
#   planted instances, ladders as x-lines, 20,000 parities that share no variable or are in one chain, 16,000 of three to five
#   variables over 20,000, and two wide ones that share every third variable;
# - `cxsat solve` of ladders and inconsistent systems by clauses beside the same by x-lines.
# usage: bench/measure/parities.sh [LIMIT [ACTS]]
# LIMIT: seconds after which a run of a solver is cut off (60). ACTS: acts of `Incremental` (1,000,000); `Scratch` does a
# hundredth of them. The program that drives the engines is proved, built and run in a folder of its own.
set -euo pipefail
source "$(dirname "$0")/../common.sh"
need cryptominisat5 valgrind /usr/bin/time
limit=${1:-60}
acts=${2:-1000000}

engines() {
    (stand_on parity_times cx_base parity_engine gauss_jordan gauss_incremental parity_driver; first_run "$acts")
    awk '
        $1 == "engine" { events[$2] = $3; millis[$2] = $4 > 0 ? $4 : 1 }
        END {
            fast = events["Incremental"] / millis["Incremental"] * 1000
            slow = events["Scratch"] / millis["Scratch"] * 1000
            printf "| events of parities | 200 rows, 300 columns | Incremental: %d in %d ms, %d a second | Scratch: %d in %d ms, %d a second | %.1f |\n",
                events["Incremental"], millis["Incremental"], fast, events["Scratch"], millis["Scratch"], slow, fast / slow
        }' "$work/run.log"
}

# The seconds that starting and timing a program takes by itself, the mean of fifty.
idle() {
    local sum=0 taken round
    for ((round = 0; round < 50; round++)); do
        read -r taken _ <<< "$(run true)"
        sum=$(awk -v a="$sum" -v b="$taken" 'BEGIN { print a + b }')
    done
    awk -v a="$sum" 'BEGIN { print a / 50 }'
}

# The sum of so many runs without what starting them takes, and the memory and the status of the last one: short runs are below
# what one of them can tell.
repeated() {
    local times=$1 sum=0 taken memory=- status=124 round
    shift
    for ((round = 0; round < times; round++)); do
        read -r taken memory status <<< "$(run "$@")"
        sum=$(awk -v a="$sum" -v b="$taken" -v idle="$start" 'BEGIN { print a + (b > idle ? b - idle : 0) }')
        [ "$status" != 124 ] || break
    done
    echo "$sum $memory $status"
}

# A formula of this kind and size.
formula() {
    case $1 in
        even | odd) "$here/make/planted.py" "$1" "$2" "$2" ;;
        shared) awk -v n="$2" 'BEGIN { print "p cnf", n, 2; for (lacks = 0; lacks < 2; lacks++) { printf "x"; for (v = 1; v <= n; v++) if (v % 3 != lacks) printf "%d ", v; print 0 } }' ;;
        *) awk -v kind="$1" -v size="$2" -v seed="$2" -v form=x -f "$here/make/instance.awk" ;;
    esac
}

# How many millions of instructions a command takes.
millions() {
    { valgrind --tool=callgrind --callgrind-out-file=/dev/null "$@" 2>&1 > /dev/null || true; } | awk '/refs:/ { gsub(",", "", $NF); printf "%.1f", $NF / 1e6 }'
}

# A row beside cryptominisat5 with these options. Where one run is too short for a clock, the ratio is that of instructions.
beside() {
    local peer=$1 taken memory told counted
    shift
    read -r taken memory told <<< "$(repeated "$times" cryptominisat5 --verb 0 "$@" "$work/formula")"
    agree "$what" "$peer" "$status" "$told"
    if [ "$times" = 1 ]; then
        row 'solving parities' "$what" "$own s, $own_memory MB" "$peer: $taken s, $memory MB" "$(ratio "$own" "$taken")"
    else
        counted=$(millions cryptominisat5 --verb 0 "$@" "$work/formula")
        row 'solving parities' "$what, $times runs" "$own s, $own_memory MB; one run $own_counted million instructions" \
            "$peer: $taken s, $memory MB; $counted million" "instructions $(ratio "$own_counted" "$counted")"
    fi
}

measure() {
    local family=$1 kind=$2 size=$3 times=$4 own own_memory status own_counted what
    formula "$kind" "$size" > "$work/formula"
    read -r own own_memory status <<< "$(repeated "$times" "$program" solve "$work/formula")"
    what="$family $size (status $status)"
    [ "$times" = 1 ] || own_counted=$(millions "$program" solve "$work/formula")
    beside cryptominisat5
    beside 'cryptominisat5, bounds lifted' "${lifted[@]}"
}

# The same parities as clauses and as x-lines, by the instructions of `solve`: no conflict is counted for either.
hidden() {
    local what=$1 kind=$2 size=$3 form told=()
    for form in clauses x; do
        awk -v kind="$kind" -v size="$size" -v seed=1 -v form="$form" -f "$here/make/instance.awk" > "$work/formula"
        told+=("$(millions "$program" solve "$work/formula" --proof "$work/log")")
        ! grep -q "^c conflict" "$work/log" || { echo "parities.sh: $what $size as $form: a conflict is counted" >&2; exit 1; }
    done
    row 'solving parities' "$what $size, by clauses" "${told[0]} million instructions" "by x-lines: ${told[1]} million" "instructions $(ratio "${told[0]}" "${told[1]}")"
}

engines
build
start=$(idle)
for size in 200 400 800; do measure 'inconsistent parities:' parity "$size" 10; done
measure 'inconsistent parities:' parity 3200 1
for size in 200 400 800; do measure 'planted (`demo even`), size:' even "$size" 10; measure 'planted (`demo odd`), size:' odd "$size" 10; done
for size in 8 50 100 200 400; do measure 'ladder as x-lines, rungs:' ladder "$size" 10; done
measure 'ladder as x-lines, rungs:' ladder 10000 1
measure 'parities that share no variable:' apart 20000 1
measure 'parities in one chain:' chain 20000 1
measure 'sparse parities that hidden values meet:' sparse 16000 1
for size in 30000 60000 120000; do measure 'two parities that share every third variable:' shared "$size" 1; done
for size in 100 400 1000; do hidden 'ladder, rungs:' ladder "$size"; done
for size in 200 800; do hidden 'inconsistent system, variables:' system "$size"; done
