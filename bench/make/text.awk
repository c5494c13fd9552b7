# Writes some bytes of clauses and x-lines from a seed: awk -v seed=1 -v size=50000000 -f make_text.awk
# A small generator of its own, so that each awk writes the same text.
function next_number(limit) {
    state = (state * 16807) % 2147483647
    return state % limit
}
BEGIN {
    state = seed + 1
    vars = 1000000
    printf "c clauses and x-lines of seed %d\np cnf %d 0\n", seed, vars
    for (written = 0; written < size; written += length(line) + 1) {
        width = 2 + next_number(5)
        line = next_number(5) == 0 ? "x" : ""
        for (k = 0; k < width; k++)
            line = line (next_number(2) ? "-" : "") (1 + next_number(vars)) " "
        line = line "0"
        print line
    }
}
