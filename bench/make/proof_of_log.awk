# Turns a log with hints, whose ids are those of the formula, into a proof step by step, without a search:
# awk -f proof_of_log.awk LOG > PROOF
# A hint of the log stands for itself, so `check` accepts the proof only where all hints of the log are right.
$1 == "c" || $1 == "o" || $1 == "f" { next }
$1 == "d" && $2 == "x" { print "x d", $3, 0; next }
$1 == "d" { print $2, "d", $2, 0; next }
{
    line = ""
    for (k = $1 == "a" ? 2 : 1; k <= NF; k++) if ($k != "l") line = line $k " "
    print line
}
