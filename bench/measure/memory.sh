#!/usr/bin/env bash
# Measures the memory of a search beside that of its live clauses, on one random formula of clauses of three literals.
# usage: bench/measure/memory.sh [CONFLICTS [VARIABLES [SEED]]]     (1,000,000 conflicts, 400 variables, seed 1)
# How many bytes the live clauses take at their most is told by the log that the same search writes. A live clause takes 4 bytes a
# literal and CLAUSE_BYTES beside: what its head in the arena has to hold (24), its id among that, and its two nodes in the watch
# lists (19). What a search of one conflict takes is left out on both sides: the program, and the clauses of the formula.
set -euo pipefail
source "$(dirname "$0")/../common.sh"
need /usr/bin/time
build
conflicts=${1:-1000000} vars=${2:-400} seed=${3:-1}
clause_bytes=43
clauses=$((vars * 426 / 100))
awk -v seed="$seed" -v clauses="$clauses" -v vars="$vars" -f "$here/make/clauses.awk" > "$work/formula"

# The live clauses of a search of so many conflicts and their literals, where their bytes are the most, and these bytes, by the log.
live() {
    "$program" solve "$work/formula" --conflicts "$1" --proof "$work/log" > "$work/answer" || true
    awk -v each="$clause_bytes" '
        function look() {
            if (each * clauses + 4 * literals > most) { most = each * clauses + 4 * literals; then = clauses " " literals }
        }
        $1 == "o" || $1 == "a" {
            n = 0
            for (i = 3; $i != 0; i++) n++
            if (!($2 in length_of)) clauses++
            else literals -= length_of[$2]
            length_of[$2] = n
            literals += n
            look()
        }
        $1 == "d" && ($2 in length_of) { clauses--; literals -= length_of[$2]; delete length_of[$2] }
        END { print then, most }' "$work/log"
}

# The memory of a search of so many conflicts in kilobytes, its seconds, and its live clauses at their most, their literals and their bytes.
search() {
    local memory taken alive literals own
    /usr/bin/time -f '%M %U' -o "$work/time" "$program" solve "$work/formula" --conflicts "$1" > "$work/answer" || true
    read -r memory taken < <(tail -n 1 "$work/time")
    read -r alive literals own < <(live "$1")
    echo "$memory $taken $alive $literals $own"
}

read -r first_memory _ _ _ first_own <<< "$(search 1)"
for count in $((conflicts / 10)) "$conflicts"; do
    read -r memory taken alive literals own <<< "$(search "$count")"
    row 'memory of a search' "$vars variables, $count conflicts: $(head -n 1 "$work/answer"), $taken s" \
        "$(awk -v m="$((memory - first_memory))" 'BEGIN { printf "%.1f MB", m / 1000 }')" \
        "$alive live clauses of $literals literals at the most: $(awk -v b="$((own - first_own))" 'BEGIN { printf "%.1f MB", b / 1e6 }')" \
        "$(awk -v m="$((memory - first_memory))" -v own="$((own - first_own))" 'BEGIN { printf "%.2f", m * 1000 / own }')"
done
