#!/usr/bin/env bash
# Times the kernels of gf2_rows over lanes beside their plain loops, on rows of 1, 8, 64 and 1,024 words.
# usage: bench/measure/rows.sh [WORDS]
# Each row goes over about WORDS words (100,000,000 if none are given). The program is proved, built and run in a folder of
# its own; it takes a minute or two.
set -euo pipefail
source "$(dirname "$0")/../common.sh"
stand_on rows_times gf2_rows
first_run "${1:-100000000}"
while read -r _ name words plain lanes same; do
    [ "$same" = true ] || { echo "rows.sh: $name answers otherwise over lanes" >&2; exit 1; }
    row 'row kernels' "$name, rows of $words words" "over lanes: $lanes ms" "plain loop: $plain ms" "$(ratio "$lanes" "$plain")"
done < <(grep '^kernel ' "$work/run.log")
