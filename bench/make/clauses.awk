# Writes a random formula of clauses of three literals from a seed: awk -v seed=1 -v clauses=1000000 -v vars=300000 -f make_clauses.awk
# A clause has three different variables. A small generator of its own, so that each awk writes the same formula.
function next_number(limit) {
    state = (state * 16807) % 2147483647
    return state % limit
}
function next_literal(variable) {
    return (next_number(2) ? "-" : "") variable
}
BEGIN {
    state = seed + 1
    printf "p cnf %d %d\n", vars, clauses
    for (written = 0; written < clauses; written++) {
        first = 1 + next_number(vars)
        do second = 1 + next_number(vars); while (second == first)
        do third = 1 + next_number(vars); while (third == first || third == second)
        line = next_literal(first)
        line = line " " next_literal(second)
        line = line " " next_literal(third)
        print line " 0"
    }
}
