#!/usr/bin/env bash
# Times `cxsat elab` on the FRAT logs that `cryptominisat5` (Debian's package) writes of its own refutations, as they come and
# without their hints, beside the time that the solver took to refute the formula and write the log; and `cxsat check` on the proofs.
# With `drat-trim` on the path, the hints of our proof are beside those of its proof (`-L`) of the same additions and deletions.
# usage: bench/measure/foreign.sh [LIMIT]     seconds after which a run is cut off (300)
set -euo pipefail
source "$(dirname "$0")/../common.sh"
source "$here/measure/logs.sh"
need cryptominisat5 /usr/bin/time
build
limit=${1:-300}

# How many hints the additions of a proof have.
hints() {
    awk '$2 != "d" && $1 != "x" { for (i = 2; $i != 0; i++); for (i++; $i != 0; i++) n++ } END { print n + 0 }' "$1"
}

# Additions and deletions of a log, as DRAT has them.
drat() {
    awk '$1 == "a" || $1 == "d" { line = $1 == "d" ? "d" : ""; for (i = 3; $i != 0; i++) line = line " " $i; print line " 0" }' "$1"
}

# A row for a log of the formula, which the solver took so many seconds to write.
elaborated() {
    local what=$1 log=$2 wrote=$3 taken memory status checked own peer=-
    read -r taken memory status <<< "$(run "$program" elab "$work/formula" "$log" "$work/proof")"
    row 'elaborating a log of cryptominisat5' "$what: $(grep -c '^a' "$log") additions, $(grep -c '^d' "$log") deletions, $(megabytes "$log") (status $status)" \
        "$taken s, $memory MB" "the solver: $wrote s" "$(ratio "$taken" "$wrote")"
    [ "$status" = 0 ] || return 0
    checked=$(seconds "$program" check "$work/formula" "$work/proof")
    answered 's VERIFIED'
    own=$(hints "$work/proof")
    if command -v drat-trim > /dev/null; then
        drat "$log" > "$work/drat"
        drat-trim "$work/formula" "$work/drat" -L "$work/lrat" > "$work/answer"
        peer=$(hints "$work/lrat")
    fi
    row 'its proof' "$what: $own hints, $(megabytes "$work/proof")" "check: $checked s" "elab over check: $(ratio "$taken" "$checked")" "hints of drat-trim: $peer"
}

judge_foreign() {
    elaborated "$1, with its hints" "$work/log" "$2"
    sed 's/ 0 l .*/ 0/' "$work/log" > "$work/bare"
    elaborated "$1, without hints" "$work/bare" "$2"
}

foreign_logs
