#!/usr/bin/env bash
# Counts the values that meet a formula without comments, approximately, by hashing: parities over variables picked at random, each with
# one new variable, whose assumption puts the parity in force. With m of them assumed a cell is left of about one in 2^m of the solutions.
# The least m whose cell has at most PIVOT solutions is found by doubling and halving, the cell's solutions are counted by clauses that
# exclude one after another, and the median of some rounds is told.
# Each cell is certified: `model` judges each solution, and `elab` and `check` the refutation that says that there are no more.
# usage: examples/count.sh FORMULA [ROUNDS [SEED [PIVOT]]]     (5 rounds, seed 1, at most 40 solutions a cell)
set -euo pipefail
formula=$1 rounds=${2:-5} seed=${3:-1} pivot=${4:-40}
top=$(cd "$(dirname "$(readlink -f "${BASH_SOURCE[0]}")")/.." && pwd)
cxsat=$top/crates/cxsat/out/cxsat
# The launcher builds the program where it is missing or old, and takes longer than most of the calls below.
"$top/bin/cxsat" demo even 4 1 > /dev/null
work=$(mktemp -d)
trap 'rm -rf "$work"' EXIT
vars=$(awk 'NR == 1 { print $3 }' "$formula")
solved=0 certified=0

now() { date +%s%N; }

# How many solutions the cell of the first m hashes has, but at most PIVOT and one more; left in `cell`.
count_cell() {
    local m=$1 status begun
    { cat "$work/hashed"; [ "$m" = 0 ] || echo "a $(seq -s ' ' $((vars + 1)) $((vars + m))) 0"; } > "$work/cell"
    cell=0
    while [ "$cell" -le "$pivot" ]; do
        status=0 begun=$(now)
        "$cxsat" solve "$work/cell" --proof "$work/log" > "$work/answer" || status=$?
        solved=$((solved + $(now) - begun)) begun=$(now)
        case $status in
            10)
                [ "$("$cxsat" model "$work/cell" "$work/answer")" = 's MODEL RIGHT' ]
                certified=$((certified + $(now) - begun))
                cell=$((cell + 1))
                awk -v vars="$vars" '$1 == "v" { for (k = 2; k <= NF; k++) if ($k && $k <= vars && -$k <= vars) printf "%d ", -$k } END { print 0 }' "$work/answer" >> "$work/cell"
                ;;
            20)
                rm -f "$work/proof"
                [ "$("$cxsat" elab "$work/cell" "$work/log" "$work/proof")" = 's ELABORATED' ]
                [ "$("$cxsat" check "$work/cell" "$work/proof")" = 's VERIFIED' ]
                certified=$((certified + $(now) - begun))
                ;;
            *) echo "count: solve ended with $status" >&2; exit 1 ;;
        esac
        [ "$status" = 10 ] || break
    done
}

# A formula of few solutions has one cell.
cp "$formula" "$work/hashed"
count_cell 0
if [ "$cell" -le "$pivot" ]; then
    echo "s $cell solutions"
    exit
fi
for round in $(seq "$rounds"); do
    awk -v parities="$vars" -v seed=$((seed * 1000 + round)) -v switches=1 -f "$top/examples/hash.awk" "$formula" > "$work/hashed"
    # Under `low` hashes cells are too large, under `high` small enough.
    low=0 high=1
    count_cell "$high"
    while [ "$cell" -gt "$pivot" ]; do
        low=$high high=$((2 * high < vars ? 2 * high : vars))
        count_cell "$high"
    done
    small=$cell
    while [ $((high - low)) -gt 1 ]; do
        middle=$(((low + high) / 2))
        count_cell "$middle"
        if [ "$cell" -gt "$pivot" ]; then low=$middle; else high=$middle small=$cell; fi
    done
    echo "c round $round: hashes $high, solutions $small"
    echo $((small << high)) >> "$work/counts"
done
echo "s about $(sort -n "$work/counts" | sed -n "$(((rounds + 1) / 2))p") solutions"
echo "c certifying took $((100 * certified / solved)) % of the time of solving" >&2
