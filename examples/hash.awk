# Adds parities to a formula without comments, as counters and samplers do that hash its solutions: each has half of the variables, picked at
# random, and either side, so about half of the solutions meet it: awk -v parities=COUNT -v seed=SEED -f hash.awk FORMULA
# With -v switches=1 the k-th parity has a variable of its own, the number of the formula's variables plus k: it is in force where that is assumed.
function word() { state = (state * 16807) % 2147483647; return state }
function coin() { return word() > 1073741823 }
NR == 1 {
    state = seed
    for (k = 0; k < 10; k++) word()
    variables = $3
    print "p cnf", variables + (switches ? parities : 0), $4 + parities
    next
}
{ print }
END {
    for (k = 1; k <= parities; k++) {
        line = ""
        for (v = 1; v <= variables; v++) if (coin()) line = line " " (line == "" && coin() ? -v : v)
        if (switches) line = line " " variables + k
        print "x" substr(line, 2), "0"
    }
}
