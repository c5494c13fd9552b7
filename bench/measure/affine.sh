#!/usr/bin/env bash
# Times `cxsat affine`: on random parities, as they are drawn and with right sides that hidden values meet, beside `cxsat solve` of the
# same formula; on parities in a chain and on parities that share no variable, each beside half as many; and on one parity among many
# variables, beside an awk script that prints the same text.
# How long a basis is depends on the numbers of the variables. Where a chain's own variables come before all shared ones, it is as long as
# the formula; where they take turns, a line of it has every second variable below its last, so that the answer grows with the square.
# Answers are held against the parities: the point meets each, and each line of the basis has an even number of its variables.
# usage: bench/measure/affine.sh [SIZE [CHAIN [APART [VARIABLES]]]]     (2,000, 20,000, 100,000 and 1,000,000)
set -euo pipefail
source "$(dirname "$0")/../common.sh"
need /usr/bin/time
build
limit=600 clock='%U %S'
size=${1:-2000} chain=${2:-20000} apart=${3:-100000} variables=${4:-1000000}

telling() { "$program" affine "$work/formula"; }
solving() { "$program" solve "$work/formula" || true; }

# A formula of this kind and size.
make() {
    awk -v kind="$1" -v size="$2" -v seed=1 -v form=x -f "$here/make/instance.awk"
}

# Ends the script unless what $work/answer tells of the formula is so, as far as the parities alone show it.
held() {
    awk '
        FNR == NR && $1 == "t" { for (i = 2; i < NF; i++) is_true[$i < 0 ? -$i : $i] = $i > 0 }
        FNR == NR && $1 == "b" { lines++; for (i = 2; i < NF; i++) lines_of[$i] = lines_of[$i] " " lines }
        FNR == NR || !/^x/ { next }
        {
            sub(/^x/, "")
            sum = 0
            split("", odd)
            for (i = 1; i < NF; i++) {
                variable = $i < 0 ? -$i : $i
                sum += is_true[variable] == ($i > 0)
                n = split(lines_of[variable], line, " ")
                for (k = 1; k <= n; k++) if (line[k] in odd) delete odd[line[k]]; else odd[line[k]]
            }
            if (sum % 2 == 0) wrong++
            for (k in odd) wrong++
        }
        END { exit wrong > 0 }' "$work/answer" "$work/formula" || { echo "affine.sh: $1: what is told is not so" >&2; exit 1; }
}

# A row for random parities, beside `solve` of them.
beside_solve() {
    local what=$1 memory first found both told solved
    read -r _ memory _ <<< "$(run "$program" affine "$work/formula")"
    first=$(head -n 1 "$work/answer")
    [ "$first" = 's AFFINE NONE' ] || held "$what"
    solving > "$work/answer"
    found=$(head -n 1 "$work/answer")
    case $first/$found in
        's AFFINE NONE/s UNSATISFIABLE' | 's AFFINE '[0-9]*'/s SATISFIABLE') ;;
        *) echo "affine.sh: $what: '$first', and solve told '$found'" >&2; exit 1 ;;
    esac
    both=$(least_of_both "$work/none" telling "$first" solving "$found")
    read -r told solved <<< "$both"
    row 'solutions of parities' "$what: $first" "$told s, $memory MB" "solve: $solved s" "$(ratio "$told" "$solved")"
}

# Seconds, megabytes, status and the bytes of what is told of so many parities of a kind, none of which is a sum of others: as many
# variables are free as there are variables above the number of parities.
told() {
    local what=$1 kind=$2 count=$3 taken memory status
    make "$kind" "$count" > "$work/formula"
    read -r taken memory status <<< "$(run "$program" affine "$work/formula")"
    if [ "$status" = 0 ]; then
        answered "s AFFINE $(awk -v count="$count" 'NR == 1 { print $3 - count }' "$work/formula")"
        [ "$kind" = chain ] || held "$what $count"
    fi
    echo "$taken $memory $status $(wc -c < "$work/answer")"
}

# A row for so many parities of a kind, beside half as many.
beside_half() {
    local what=$1 kind=$2 count=$3 whole half taken memory status bytes half_taken half_bytes
    half=$(told "$what" "$kind" $((count / 2)))
    whole=$(told "$what" "$kind" "$count")
    read -r half_taken _ _ half_bytes <<< "$half"
    read -r taken memory status bytes <<< "$whole"
    row 'solutions of parities' "$what $count (status $status), answer $(in_megabytes "$bytes")" "$taken s, $memory MB" \
        "half as many, answer $(in_megabytes "$half_bytes"): $half_taken s" "$(ratio "$taken" "$half_taken")"
}

in_megabytes() {
    awk -v bytes="$1" 'BEGIN { printf "%.1f MB", bytes / 1e6 }'
}

# A row for one parity of two among many variables, beside awk.
among_many() {
    local taken memory status peer
    printf 'p cnf %s 1\nx1 2 0\n' "$variables" > "$work/formula"
    read -r taken memory status <<< "$(run "$program" affine "$work/formula")"
    mv "$work/answer" "$work/told"
    read -r peer _ <<< "$(run awk -v n="$variables" 'BEGIN {
        print "s AFFINE", n - 1
        printf "t 1"
        for (k = 2; k <= n; k++) printf " -%d", k
        print " 0\nb 1 2 0"
        for (k = 3; k <= n; k++) print "b", k, 0
    }')"
    cmp -s "$work/told" "$work/answer" || { echo "affine.sh: one parity among $variables variables: status $status, and another text than wanted" >&2; exit 1; }
    row 'solutions of parities' "one parity of two among $variables variables, answer $(megabytes "$work/told")" "$taken s, $memory MB" \
        "awk that prints the same: $peer s" "$(ratio "$taken" "$peer")"
}

make system "$size" | sed -n "1,$((size + 1))p" > "$work/formula"
beside_solve "$size random parities over $size variables"
make planted "$size" | grep '^[px]' > "$work/formula"
beside_solve "$size random parities over $size variables that hidden values meet"
beside_half 'parities in a chain, own variables first:' linked "$chain"
beside_half 'parities in a chain, own and shared variables in turns:' chain "$chain"
beside_half 'parities that share no variable:' apart "$apart"
among_many
