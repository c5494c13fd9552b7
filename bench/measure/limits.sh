#!/usr/bin/env bash
# What a variable costs each command in memory, where a formula of one or two constraints has as many variables as there may be: the
# bytes above those of two variables, for each variable. `affine` has a tenth of the variables, since it tells each of them twice.
# `solve` of such a formula is to keep within 12 GB and a minute by the clock, and `model` reads its answer back.
# Then assumed literals beside clauses of one literal: one of the greatest variable, and one of each of a million variables.
# A run that passes its bounds has the status 6, or 124, in its row; one that answers wrongly ends the script.
# usage: bench/measure/limits.sh [VARIABLES [ASSUMED]]     (268,435,455 and 1,000,000)
# The longest answers have three gigabytes, in the folder of temporary files; `model` reads one whole into memory.
set -euo pipefail
source "$(dirname "$0")/../common.sh"
need /usr/bin/time
build
limit=600 clock='%U %S'
variables=${1:-268435455} assumed=${2:-1000000}

# Seconds, megabytes and status of a command that is cut off at a minute and has 12 GB.
within() {
    (
        ulimit -v 12000000
        limit=60
        run "$@"
    )
}

# Ends the script where a run within its bounds ended otherwise than so: its status, and the status and a line that are wanted.
wanted() {
    case $1 in
        6 | 124) ;;
        "$2") answered "$3" ;;
        *) echo "limits.sh: status $1 where $2 is wanted" >&2; exit 1 ;;
    esac
}

# The formulas over so many variables: one that values meet, one that none meet, and one of a parity.
write_formulas() {
    printf 'p cnf %s 1\n1 0\n' "$1" > "$work/met"
    printf 'p cnf %s 2\n1 0\n-1 0\n' "$1" > "$work/unmet"
    printf 'p cnf %s 1\nx1 2 0\n' "$1" > "$work/parity"
}

# A row of a command: on what, over how many variables, its seconds, megabytes and status, and its megabytes over two variables.
tell() {
    local what=$1 count=$2 taken=$3 memory=$4 status=$5 small=$6
    row 'a variable' "$what, $count variables (status $status)" "$taken s, $memory MB" "two variables: $small MB" \
        "$(awk -v a="$memory" -v b="$small" -v n="$count" 'BEGIN { if (a == "-") print "-"; else printf "%.1f bytes a variable", (a - b) * 1024000 / n }')"
}

# The row of a command: on what, over how many variables, the status and a line that are wanted, and its words. $ended is its status then.
measure() {
    local what=$1 count=$2 status=$3 line=$4 small taken memory
    shift 4
    write_formulas 2
    read -r _ small _ <<< "$(within "$program" "$@")"
    write_formulas "$count"
    read -r taken memory ended <<< "$(within "$program" "$@")"
    wanted "$ended" "$status" "$line"
    tell "$what" "$count" "$taken" "$memory" "$ended" "$small"
}

# The row of judging the answer that `solve` gave: over two variables it is another answer than over all.
read_back() {
    local small taken memory status
    write_formulas 2
    printf 's SATISFIABLE\nv 1 2 0\n' > "$work/values"
    read -r _ small _ <<< "$(run "$program" model "$work/met" "$work/values")"
    write_formulas "$variables"
    mv "$work/solved" "$work/values"
    read -r taken memory status <<< "$(run "$program" model "$work/met" "$work/values")"
    wanted "$status" 0 's MODEL RIGHT'
    tell "model of that answer, $(megabytes "$work/values")" "$variables" "$taken" "$memory" "$status" "$small"
    rm -f "$work/values"
}

# A row of a command over $work/assuming beside $work/units: on what, the status and a line that are wanted, and its words, where F
# is the formula.
beside_units() {
    local what=$1 status=$2 line=$3 taken memory ended peer peer_memory peer_ended
    shift 3
    read -r taken memory ended <<< "$(within "$program" "${@/#F/$work/assuming}")"
    wanted "$ended" "$status" "$line"
    read -r peer peer_memory peer_ended <<< "$(within "$program" "${@/#F/$work/units}")"
    wanted "$peer_ended" "$status" "$line"
    row 'assumed literals' "$what (status $ended)" "$taken s, $memory MB" "clauses of one literal: $peer s, $peer_memory MB (status $peer_ended)" \
        "$(ratio "$taken" "$peer"), memory $(ratio "$memory" "$peer_memory")"
}

printf 'o 1 1 0\no 2 -1 0\na 3 0 l 1 2 0\n' > "$work/log"
printf 'o 1 1 0\no 2 -1 0\na 3 0\n' > "$work/bare"
printf '3 0 1 2 0\n' > "$work/proof"
: > "$work/none"

measure 'solve of a clause of one literal' "$variables" 10 's SATISFIABLE' solve "$work/met"
mv "$work/answer" "$work/solved"
[ "$ended" != 10 ] || read_back
measure 'solve of two such clauses that contradict each other' "$variables" 20 's UNSATISFIABLE' solve "$work/unmet"
measure 'check of them with a proof of one step' "$variables" 0 's VERIFIED' check "$work/unmet" "$work/proof"
measure 'trim of that proof' "$variables" 0 's TRIMMED' trim "$work/unmet" "$work/proof" "$work/made"
measure 'elab of them with a log that has its hints' "$variables" 0 's ELABORATED' elab "$work/unmet" "$work/log" "$work/made"
measure 'elab of them with that log without hints' "$variables" 0 's ELABORATED' elab "$work/unmet" "$work/bare" "$work/made"
measure 'blast of a parity of two variables' "$variables" 0 's BLASTED' blast "$work/parity" "$work/made"
tenth=$((variables / 10))
measure 'affine of that parity' "$tenth" 0 "s AFFINE $((tenth - 1))" affine "$work/parity"

printf 'p cnf 1 1\na %s 0\n' "$variables" > "$work/assuming"
printf 'p cnf 1 1\n%s 0\n' "$variables" > "$work/units"
beside_units "check of \`a $variables 0\`, no proof" 7 'c step 1 P11' check F "$work/none"
beside_units "elab of \`a $variables 0\`, no log" 8 'c step 1 E11' elab F "$work/none" "$work/made"
beside_units "solve of \`a $variables 0\`" 10 's SATISFIABLE' solve F
awk -v n="$assumed" 'BEGIN { print "p cnf", n, 1; printf "a"; for (k = 1; k <= n; k++) printf " %d", k; print " 0" }' > "$work/assuming"
awk -v n="$assumed" 'BEGIN { print "p cnf", n, n; for (k = 1; k <= n; k++) print k, 0 }' > "$work/units"
beside_units "solve of $assumed assumed literals" 10 's SATISFIABLE' solve F
beside_units "check of $assumed assumed literals, no proof" 7 'c step 1 P11' check F "$work/none"
