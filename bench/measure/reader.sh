#!/usr/bin/env bash
# Times the reading of 50 MB of clauses and x-lines beside a plain C loop that finds and converts the same tokens.
# The formula ends with a token that is none of its grammar, so that `check` reads it whole, keeps it, and stops there.
# Both are whole processes; the best processor time of five runs each counts.
# usage: bench/measure/reader.sh [SEED] [BYTES]
set -euo pipefail
source "$(dirname "$0")/../common.sh"
need gcc
build
awk -v seed="${1:-1}" -v size="${2:-50000000}" -f "$here/make/text.awk" > "$work/text"
{ cat "$work/text"; echo stop; } > "$work/stopped"
gcc -O2 -o "$work/reader_loop" "$here/programs/reader_loop.c"

loop=$(least 5 0 "$work/reader_loop" "$work/text" keep)
own=$(least 5 3 "$program" check "$work/stopped" "$work/text")
row 'reading a formula' "$(megabytes "$work/text") of clauses and x-lines" "$own s" "plain C loop: $loop s" "$(ratio "$own" "$loop")"
