#!/usr/bin/env bash
# Measures `cxsat blast`:
# - its time and the bytes that it writes on parities of three variables, at a size and at twice its size, beside the time of reading the same
#   formula (by `check`, which then stops at a token that is none of its grammar) and of writing as many bytes (by `cat`);
# - on drawn formulas with wide parities, that `minisat`, `cadical` and `cxsat solve` answer on the formula in clauses what `cxsat solve`
#   answers on the given one, that `cxsat model` judges the values of each right on the given one, and that `cxsat solve` finds each piece
#   of each parity in the clauses again: in its log each piece is a parity that comes from clauses.
# A peer that is not there is left out.
# usage: bench/measure/blast.sh [PARITIES [FORMULAS]]     (1,000,000 and 40)
set -euo pipefail
source "$(dirname "$0")/../common.sh"
need python3
build
parities=${1:-1000000}
formulas=${2:-40}

# Parities of three variables that are drawn from a seed.
measure() {
    local count=$1 own reading writing beside
    awk -v seed=1 -v count="$count" '
        function word() { state = (state * 16807) % 2147483647; return state }
        function pick(n) { return 1 + int(word() / 2147483647 * n) }
        BEGIN {
            state = seed
            vars = int(count * 6 / 5)
            print "p cnf", vars, count
            for (k = 0; k < count; k++) {
                a = pick(vars)
                do b = pick(vars); while (b == a)
                do c = pick(vars); while (c == a || c == b)
                print "x" (word() % 2 ? a : -a), b, c, 0
            }
        }' > "$work/formula"
    { cat "$work/formula"; echo stop; } > "$work/stopped"
    own=$(least 3 0 "$program" blast "$work/formula" "$work/out")
    grep -qx "c clauses $((4 * count))" "$work/output"
    cp "$work/out" "$work/made"
    reading=$(least 3 3 "$program" check "$work/stopped" "$work/formula")
    writing=$(least 3 0 bash -c 'cat "$1" > "$2"' - "$work/made" "$work/copy")
    beside=$(awk -v a="$reading" -v b="$writing" 'BEGIN { print a + b }')
    row 'putting into clauses' "$count parities of three variables: $(megabytes "$work/formula") to $(megabytes "$work/made")" \
        "$own s" "reading it: $reading s; writing as many bytes: $writing s" "$(ratio "$own" "$beside")"
    rm -f "$work/stopped" "$work/made" "$work/out" "$work/copy"
}

# A formula with wide parities: 14 variables, parities of 2 to 10 of them with repeats and signs, and clauses of three literals.
# In a second file, how many pieces of more than one variable its parities have.
draw() {
    python3 - "$1" "$work/formula" "$work/pieces" <<'PYTHON'
import random
import sys

draw = random.Random(int(sys.argv[1]))
size = 14
lines = []
pieces = set()
last = size
for _ in range(draw.randint(2, 7)):
    literals = [draw.choice((1, -1)) * draw.randint(1, size) for _ in range(draw.randint(2, 10))]
    lines.append("x" + " ".join(map(str, literals)) + " 0")
    odd = sorted({abs(l) for l in literals if sum(abs(k) == abs(l) for k in literals) % 2})
    right = (1 + sum(l < 0 for l in literals)) % 2
    while len(odd) > 4:
        last += 1
        pieces.add((tuple(sorted(odd[:3] + [last])), 0))
        odd = [last] + odd[3:]
    pieces.add((tuple(sorted(odd)), right))
for _ in range(draw.randint(0, 25)):
    lines.append(" ".join(str(draw.choice((1, -1)) * v) for v in draw.sample(range(1, size + 1), 3)) + " 0")
with open(sys.argv[2], "w") as out:
    out.write("p cnf %d %d\n" % (size, len(lines)) + "\n".join(lines) + "\n")
with open(sys.argv[3], "w") as out:
    for variables, right in sorted(pieces):
        if len(variables) > 1:
            signed = [variables[0] if right else -variables[0]] + list(variables[1:])
            out.write(" ".join(map(str, signed)) + "\n")
PYTHON
}

# The answer of minisat as `s` and `v` lines.
of_minisat() {
    awk 'NR == 1 { if ($1 == "SAT") print "s SATISFIABLE"; next } { print "v", $0 }' "$1"
}

# Ends the script unless a solver ended with the wanted status and, where it has values, `model` judges them right.
holds() {
    local solver=$1 seed=$2 wanted=$3 had=$4 answer=$5
    [ "$had" = "$wanted" ] || { echo "blast.sh: formula $seed: $wanted as given, $had by $solver in clauses" >&2; exit 1; }
    [ "$wanted" != 10 ] || "$program" model "$work/formula" "$answer" > "$work/judged" ||
        { echo "blast.sh: formula $seed: the values of $solver are not right" >&2; exit 1; }
}

# The parities of the log that come from clauses, by their rising variables, the first one negative where the right side is 0.
found_again() {
    awk '$1 == "i" && $2 == "x" { line = ""; for (k = 4; $k != "0"; k++) line = line (k > 4 ? " " : "") $k; print line }' "$1" | sort -u
}

declare -A answers=()
solvers=('cxsat solve')
for name in minisat cadical; do
    if command -v "$name" > /dev/null; then solvers+=("$name"); else echo "blast.sh: $name is not there: apt-get install $name" >&2; fi
done
measure "$parities"
measure $((2 * parities))
pieces=0
for seed in $(seq "$formulas"); do
    draw "$seed"
    wanted=0
    "$program" solve "$work/formula" > "$work/answer" || wanted=$?
    [ "$wanted" != 10 ] || "$program" model "$work/formula" "$work/answer" > "$work/judged"
    "$program" blast "$work/formula" "$work/clauses" > "$work/size"
    for solver in "${solvers[@]}"; do
        had=0
        case $solver in
            'cxsat solve') "$program" solve "$work/clauses" --proof "$work/log" > "$work/answer" || had=$? ;;
            minisat) minisat "$work/clauses" "$work/raw" > "$work/output" 2>&1 || had=$?; of_minisat "$work/raw" > "$work/answer" ;;
            cadical) cadical -q "$work/clauses" > "$work/answer" || had=$? ;;
        esac
        holds "$solver" "$seed" "$wanted" "$had" "$work/answer"
    done
    found_again "$work/log" > "$work/found"
    sort -u "$work/pieces" > "$work/wanted"
    comm -13 "$work/found" "$work/wanted" > "$work/missing"
    [ ! -s "$work/missing" ] || { echo "blast.sh: formula $seed: not found again: $(head -n 1 "$work/missing")" >&2; exit 1; }
    pieces=$((pieces + $(wc -l < "$work/wanted")))
    answers[$wanted]=$((${answers[$wanted]:-0} + 1))
done
row 'solving in clauses' "$formulas drawn formulas with wide parities" "${answers[10]:-0} with values, ${answers[20]:-0} without" \
    "$(printf '%s, ' "${solvers[@]}")each on the clauses: the same answers, and values that are right on the given formula" '-'
row 'pieces found again' "those $formulas formulas in clauses" "$pieces pieces of two to four variables, each found by \`solve\`" '-' '-'
