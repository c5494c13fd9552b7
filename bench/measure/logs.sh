# The logs of refutations that more than one script of this folder measures. It is sourced after common.sh, not run: the script that
# sources it has a function `judge WHAT` for a log in $work/log of the formula in $work/formula, and `judge_foreign WHAT SECONDS` for one
# that another solver wrote in so many seconds.

# The log that `solve` writes of a refutation. With the form x the parities are x-lines.
own() {
    local what=$1 kind=$2 size=$3 seed=$4 form=${5:-}
    awk -v kind="$kind" -v size="$size" -v seed="$seed" -v form="$form" -f "$here/make/instance.awk" > "$work/formula"
    seconds "$program" solve "$work/formula" --proof "$work/log" --conflicts 1000000000 > "$work/taken" || true
    answered 's UNSATISFIABLE'
    judge "own log, $what $size, in $(cat "$work/taken") s"
}

# The log of a proof that proof.awk makes, with its hints or without them.
made() {
    local what=$1 kind=$2 size=$3 hints=$4 had
    awk -v kind="$kind" -v size="$size" -v formula="$work/formula" -v proof="$work/hinted" -f "$here/make/proof.awk"
    awk -v hints="$hints" -f "$here/make/log_of_proof.awk" "$work/formula" "$work/hinted" > "$work/log"
    if [ "$hints" = 1 ]; then had='hints'; else had='no hints'; fi
    judge "$what $size, $had"
}

# Logs that `solve` writes, and logs of a chain and of pigeonholes, these at a size and at twice its work or more: the chain's size, the
# number of holes, and that without hints.
own_logs() {
    local chain=$1 holes=$2 searched=$3
    own 'random 3-clauses, variables:' random 200 3
    own 'random 3-clauses, variables:' random 250 1
    own 'pigeonholes:' holes 8 1
    own 'parities and clauses, variables:' mixed 250 250
    own 'parities as clauses:' system 1000 1
    own 'ladder as clauses, rungs:' ladder 10000 1
    own 'ladder, rungs:' ladder 10000 1 x
    made 'implication chain' chain "$chain" 1
    made 'implication chain' chain $((2 * chain)) 1
    made pigeonholes holes "$holes" 1
    made pigeonholes holes $((holes + 1)) 1
    made 'implication chain' chain "$chain" 0
    made 'implication chain' chain $((2 * chain)) 0
    made pigeonholes holes "$searched" 0
    made pigeonholes holes $((searched + 1)) 0
}

# The FRAT log that `cryptominisat5` writes of a refutation.
foreign() {
    local what="$1 $3" kind=$2 size=$3 seed=$4 wrote memory status
    awk -v kind="$kind" -v size="$size" -v seed="$seed" -f "$here/make/instance.awk" > "$work/formula"
    read -r wrote memory status <<< "$(run cryptominisat5 --verb 0 "$work/formula" "$work/log")"
    if [ "$status" != 20 ]; then
        row 'a log of cryptominisat5' "$what" - "the solver ended with $status" -
        return
    fi
    judge_foreign "$what" "$wrote"
}

foreign_logs() {
    foreign 'random 3-clauses, variables:' random 150 1
    foreign 'random 3-clauses, variables:' random 200 3
    foreign 'random 3-clauses, variables:' random 250 1
    foreign pigeonholes holes 7 1
    foreign pigeonholes holes 8 1
    foreign pigeonholes holes 9 1
    foreign 'ladder as clauses, rungs:' ladder 20 1
    foreign 'ladder as clauses, rungs:' ladder 100 1
    foreign 'inconsistent parities as clauses, variables:' system 40 1
    foreign 'inconsistent parities as clauses, variables:' system 60 1
}
