#!/usr/bin/env bash
# Refuses each growth of memory in turn: for each command and each N up to the number of growths of its run, the Nth growth
# is refused. Each time the status must be 6, with nothing on standard output, or the run's own with the run's own output.
# usage: bench/hostile/refused.sh [MOST]     (at most MOST growths of each command are refused, 3,000 by default, evenly spread)
set -euo pipefail
source "$(dirname "$0")/../common.sh"
need gcc
build
most=${1:-3000}
program=$here/../crates/cxsat/out/cxsat
gcc -O2 -shared -fPIC -o "$work/refused.so" "$here/hostile/refused_growth.c" -ldl
wrong=0

# One run with a growth refused, none where the number is 0. Its status is in $status, its output in a file.
run() {
    local refused=$1 output=$2
    shift 2
    status=0
    REFUSE=$refused COUNT=$work/count LD_PRELOAD=$work/refused.so "$program" "$@" > "$output" 2> "$work/message" || status=$?
}

try() {
    local what=$1 own growths step tried=0 sixes=0
    shift
    run 0 "$work/whole" "$@"
    own=$status
    growths=$(cat "$work/count")
    step=$(((growths + most - 1) / most))
    for ((n = 1; n <= growths; n += step)); do
        run "$n" "$work/part" "$@"
        tried=$((tried + 1))
        if [ "$status" = 6 ] && [ ! -s "$work/part" ]; then
            sixes=$((sixes + 1))
        elif [ "$status" != "$own" ] || ! cmp -s "$work/part" "$work/whole"; then
            echo "NOT as wanted: $what, growth $n refused: status $status"
            wrong=$((wrong + 1))
        fi
    done
    echo "$what (status $own): $growths growths, $tried refused in turn, $sixes ended with 6"
}

"$here/make/planted.py" odd 40 1 > "$work/formula"
"$here/make/planted.py" even 40 1 > "$work/even"
"$program" solve "$work/formula" --proof "$work/log" > "$work/answer" || true
"$program" elab "$work/formula" "$work/log" "$work/proof" > "$work/answer"
"$program" solve "$work/even" > "$work/values" || true
try solve solve "$work/formula" --proof "$work/log2"
try 'solve, with values' solve "$work/even"
try elab elab "$work/formula" "$work/log" "$work/proof2"
try check check "$work/formula" "$work/proof"
try model model "$work/even" "$work/values"
try demo demo odd 20 3
try trim trim "$work/formula" "$work/proof" "$work/left"
try blast blast "$work/formula" "$work/clauses"
try affine affine "$work/even"
try 'a refused formula' check "$work/log" "$work/proof"
echo "$wrong not as wanted"
[ "$wrong" = 0 ]
