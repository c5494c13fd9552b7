#!/usr/bin/env bash
# Texts at the limits: `check`, `elab`, `model`, `affine` and `demo` must give each its named answer, and `solve` its status, within 1 GB of memory and a minute.
# usage: bench/hostile/hostile.sh
set -euo pipefail
source "$(dirname "$0")/../common.sh"
build
ulimit -v 1000000
failures=0

# Runs the program: what is tried, the wanted status, a line that must be in one of the outputs, and the words.
try() {
    local what=$1 status=$2 line=$3 had=0
    shift 3
    timeout 60 "$program" "$@" > "$work/output" 2>&1 || had=$?
    if [ "$had" = "$status" ] && grep -qxF -- "$line" "$work/output"; then
        echo "as wanted: $what"
    else
        echo "NOT as wanted: $what: status $had, $(head -c 200 "$work/output" | head -n 2 | tr '\n' ' ')"
        failures=$((failures + 1))
    fi
}

# As `try`, of texts in files: `check` and `elab` of the second one, `solve` and `affine` of the formula.
expect() {
    try "$1" "$2" "$3" check "$work/formula" "$work/proof"
}
expect_solved() {
    try "$1" "$2" "$3" solve "$work/formula"
}
expect_told() {
    try "$1" 0 "$2" affine "$work/formula"
}
expect_elaborated() {
    try "$1" "$2" "$3" elab "$work/formula" "$work/log" "$work/made"
}

awk 'BEGIN { n = 10000000; print "p cnf", n, 1; for (k = 1; k <= n; k++) printf "%d ", k; print 0 }' > "$work/formula"
expect_solved 'a clause of ten million literals' 10 's SATISFIABLE'
awk 'BEGIN { n = 10000000; print "p cnf 2 1"; for (k = 1; k <= n; k++) printf "%d ", k % 2 + 1; print 0 }' > "$work/formula"
expect_solved 'a clause of two literals ten million times' 10 's SATISFIABLE'
awk 'BEGIN { n = 1000000; print "p cnf", n, 1; printf "x"; for (k = 1; k <= n; k++) printf "%d ", k; print 0 }' > "$work/formula"
expect_solved 'a parity over a million variables' 10 's SATISFIABLE'
expect_told 'the solutions of a parity over a million variables' 's AFFINE 999999'
awk 'BEGIN { n = 10000000; print "p cnf 1", n; for (k = 1; k <= n; k++) print "x0" }' > "$work/formula"
expect_solved 'ten million empty parities' 20 's UNSATISFIABLE'
awk 'BEGIN { n = 1000000; print "p cnf", n, n; for (k = 1; k <= n; k++) print k, 0 }' > "$work/formula"
expect_solved 'a million units' 10 's SATISFIABLE'
awk 'BEGIN { n = 1000000; print "p cnf", n, n + 1; print 1, 0; for (k = 1; k < n; k++) print -k, k + 1, 0; print -n, 0 }' > "$work/formula"
expect_solved 'a chain of a million clauses' 20 's UNSATISFIABLE'
awk 'BEGIN { n = 100000; print "p cnf 60", n; for (k = 1; k <= n; k++) print "x" k % 59 + 1, k % 60 + 1, (k * 7) % 60 + 1, 0 }' > "$work/formula"
# each has an odd number of positive literals, so all variables true meet them; the same with one of them turned is met by none
expect_solved 'a hundred thousand parities over sixty variables' 10 's SATISFIABLE'
expect_told 'the one solution of a hundred thousand parities over sixty variables' 's AFFINE 0'
awk 'NR == 1 { print "p cnf 60 100001"; next } NR == 2 { line = $0; sub(/^x/, "x-", line); print line } { print }' "$work/formula" > "$work/turned"
mv "$work/turned" "$work/formula"
expect_solved 'the same, one of them with its negation' 20 's UNSATISFIABLE'
expect_told 'that these have no solution' 's AFFINE NONE'

big=9223372036854775807
printf 'p cnf 2 1\n1 2 0\n' > "$work/formula"
printf '%s 1 2 0 1 0' $big > "$work/proof"
expect 'the greatest id, and no line end' 7 'c step 2 P11'
printf '%s 1 2 0 1 0' 9223372036854775808 > "$work/proof"
expect 'an id above the greatest' 7 'c step 1 P0 at byte 0'
printf '5 %s 0 1 0\n' -$big > "$work/proof"
expect 'the greatest literal' 7 'c step 1 P1'
printf '5 1 2 0 %s 0\n' -$big > "$work/proof"
expect 'the greatest negative hint' 7 'c step 1 P3'
printf '5 1 2 0 %s 0\n' $big > "$work/proof"
expect 'the greatest hint' 7 'c step 1 P4'
printf '5 1\0 2 0 1 0\n' > "$work/proof"
expect 'a NUL in a token' 7 'c step 1 P0 at byte 2'
printf '5 1 2 0 1 0\n\377\376\n' > "$work/proof"
expect 'bytes above 127' 7 'c step 2 P0 at byte 12'
awk 'BEGIN { printf "5 "; for (k = 0; k < 1000000; k++) printf "%d ", k % 2 ? 1 : 2; print "0 1 0" }' > "$work/proof"
expect 'a step of a million literals' 7 'c step 2 P11'
awk 'BEGIN { printf "5 1 2 0 "; for (k = 0; k < 1000000; k++) printf "1 "; print "0" }' > "$work/proof"
expect 'a step of a million hints' 7 'c step 2 P11'
awk 'BEGIN { printf "5 d "; for (k = 0; k < 1000000; k++) printf "1 "; print "0\n6 0 1 0" }' > "$work/proof"
expect 'one id deleted a million times' 7 'c step 2 P4'
awk 'BEGIN { for (k = 0; k < 1000000; k++) print "5 1 2 0 1 0\n5 d 5 0" }' > "$work/proof"
expect 'one id added and deleted a million times' 7 'c step 2000001 P11'
awk 'BEGIN { id = 2; for (k = 0; k < 61; k++) { id *= 2; printf "%.0f 1 2 0 1 0\n", id } }' > "$work/proof"
expect 'ids that double' 7 'c step 62 P11'
awk 'BEGIN { for (k = 1; k <= 100000; k++) printf "%.0f 1 2 0 1 0\n", k * 10000000000000 }' > "$work/proof"
expect 'ids that are far apart' 7 'c step 100001 P11'
head -c 30000000 /dev/zero | tr '\0' ' ' > "$work/proof"
expect 'thirty million blanks' 7 'c step 1 P11'
head -c 30000000 /dev/zero | tr '\0' 9 > "$work/proof"
expect 'a number of thirty million digits' 7 'c step 1 P0 at byte 0'
{ printf '5 1 2 0 1 0\n'; head -c 30000000 /dev/zero | tr '\0' 0; printf 6; printf ' 1 2 0 1 0'; } > "$work/proof"
expect 'thirty million leading zeros' 7 'c step 3 P11'
: > "$work/proof"
printf 'p cnf 268435455 1\n268435455 0\n' > "$work/formula"
expect 'the greatest variable' 7 'c step 1 P11'
printf 'p cnf 268435456 1\n1 0' > "$work/formula"
expect 'a variable above the greatest' 9 'error: limit L1 at byte 6'

# A text of so many bytes: line ends, then this; before them what comes third.
lines() {
    printf '%s' "${3-}"
    head -c $(($1 - ${#2} - $(printf '%s' "${3-}" | wc -c))) /dev/zero | tr '\0' '\n'
    printf '%s' "$2"
}
most=4294967295
lines $most 'p cnf 1 1' | try 'a formula as long as may be' 7 'c step 1 P11' check - /dev/null
lines $((most + 1)) 'p cnf 1 1' | try 'a formula longer than may be' 9 'error: limit L2 formula' check - /dev/null
printf 'p cnf 1 1\n1 0\n' > "$work/formula"
try 'a proof as long as may be' 7 'c step 2 P11' check "$work/formula" <(lines $most '5 1 0 1 0')
try 'a proof longer than may be' 9 'error: limit L2 second' check "$work/formula" <(lines $((most + 1)) '5 1 0 1 0')
try 'a log as long as may be' 8 'c step 2 E11' elab "$work/formula" <(lines $most 'o 1 1 0') "$work/made"
try 'a proof as long as may be, with a gap after its first step' 7 'c step 3 P11' check "$work/formula" <(lines $most '6 1 0 1 0' '5 1 0 1 0')
try 'a log as long as may be, with a gap after its first step' 8 'c step 3 E11' elab "$work/formula" <(lines $most 'd 1 1 0' 'o 1 1 0') "$work/made"
try 'a log longer than may be' 9 'error: limit L2 second' elab "$work/formula" <(lines $((most + 1)) 'o 1 1 0') "$work/made"

printf 'p cnf 2 1\n1 2 0\n' > "$work/formula"
printf 'o 1 1 2 0\na %s 1 2 0\n' $big > "$work/log"
expect_elaborated 'a log with the greatest id' 8 'c step 3 E11'
awk 'BEGIN { print "o 1 1 2 0"; for (k = 0; k < 100000; k++) print "a 5 1 2 0\nd 5 1 2 0" }' > "$work/log"
expect_elaborated 'one id added and deleted a hundred thousand times' 8 'c step 200002 E11'
awk 'BEGIN { print "o 1 1 2 0"; id = 2; for (k = 0; k < 61; k++) { id *= 2; printf "a %.0f 1 2 0\n", id } }' > "$work/log"
expect_elaborated 'a log with ids that double' 8 'c step 63 E11'
awk 'BEGIN { print "o 1 1 2 0"; printf "a 5 "; for (k = 0; k < 1000000; k++) printf "%d ", k % 2 ? 1 : 2; print 0 }' > "$work/log"
expect_elaborated 'a clause of a million literals in a log' 8 'c step 3 E11'
awk 'BEGIN { n = 100000; print "p cnf", n, n + 1; print 1, 0; for (k = 1; k < n; k++) print -k, k + 1, 0; print -n, 0 }' > "$work/formula"
awk 'NR > 1 { print "o", NR - 1, $0 } END { print "a", NR, 0 }' "$work/formula" > "$work/log"
expect_elaborated 'a refutation of a hundred thousand steps without a hint' 0 's ELABORATED'
awk 'BEGIN { n = 100000; print "p cnf", n, n; print 1, 0; for (k = 1; k < n; k++) print -k, k + 1, 0 }' > "$work/formula"
awk 'NR > 1 { print "o", NR - 1, $0 } END { n = NR - 1; for (k = 2; k <= n; k++) print "a", n + k, k, 0 }' "$work/formula" > "$work/log"
expect_elaborated 'a hundred thousand units without a hint, each from the one before' 8 'c step 200000 E11'
awk 'NR == 1 { $4++ } { print } END { print -100000, 0 }' "$work/formula" > "$work/refuted"
mv "$work/refuted" "$work/formula"
awk 'NR > 1 { print "o", NR - 1, $0 } END { n = NR - 1; for (k = 2; k < n; k++) print "a", n + k, k, 0; print "a", 2 * n, 0 }' "$work/formula" > "$work/log"
expect_elaborated 'the same, of a formula that unit propagation refutes' 0 's ELABORATED'

awk 'BEGIN { n = 10000000; print "p cnf", n, 1; print n, 0 }' > "$work/formula"
awk 'BEGIN { n = 10000000; print "s SATISFIABLE"; printf "v"; for (k = 1; k <= n; k++) printf " %d", k; print " 0" }' > "$work/answer.text"
try 'an answer of ten million values' 0 's MODEL RIGHT' model "$work/formula" "$work/answer.text"
printf 's SATISFIABLE\nv 1 \0 0\n' > "$work/answer.text"
printf 'p cnf 2 1\n1 2 0\n' > "$work/formula"
try 'a NUL in an answer' 11 'c A2 at byte 18' model "$work/formula" "$work/answer.text"
try 'the largest demonstration' 0 'c proof VERIFIED' demo odd 2000 18446744073709551615
echo "$failures not as wanted"
[ "$failures" = 0 ]
