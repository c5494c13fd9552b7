#!/usr/bin/env bash
# Times `cxsat elab` on the logs that `cxsat solve` writes, and on logs of chains and pigeonholes with the hints in the log and
# without them, and `cxsat check` on the proofs that it writes, each at a size and at twice its work or more. Without hints each added
# clause is searched for. Half of a chain's log tells the formula, which its proof does not, and most of a ladder's.
# usage: bench/measure/elab.sh [CHAIN [HOLES [HOLES_WITHOUT_HINTS]]]
set -euo pipefail
source "$(dirname "$0")/../common.sh"
source "$here/measure/logs.sh"
build

elaborating() { "$program" elab "$work/formula" "$work/log" "$work/proof"; }
checking() { "$program" check "$work/formula" "$work/proof"; }

# A row for a log of the formula.
judge() {
    local what=$1 both elaborated checked
    both=$(least_of_both "$work/proof" elaborating 's ELABORATED' checking 's VERIFIED')
    read -r elaborated checked <<< "$both"
    row 'elaborating a log' \
        "$what: $(wc -l < "$work/log") steps, formula $(megabytes "$work/formula"), log $(megabytes "$work/log"), proof $(megabytes "$work/proof")" \
        "$elaborated s" "check of the proof: $checked s" "$(ratio "$elaborated" "$checked")"
}

own_logs "${1:-250000}" "${2:-11}" "${3:-7}"
