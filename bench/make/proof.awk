# Writes a formula and a proof of it with hints: awk -v kind=KIND -v size=N -v formula=FILE -v proof=FILE -f make_proof.awk
# chain: the implications 1, 1 -> 2, .., -N; one unit clause a step, N steps.
# holes: N + 1 pigeons and N holes; for each set S of holes that pigeons 1 to |S| + 1 do not all fit in S.
#        Some N * 2^(N - 1) steps.
# wide: a clause of N literals by a chain of N + 1 hints, and one that is false by N + 1 hints more.
# sums: a thousand parities x_i + x_(i + 1); N steps, each the sum of all of them, and one that is false.
# sparse: such a chain, with 499 clauses and then their deletions after each of its steps, none of which is needed. The chain's own
#         steps go to the file `left` too.
function literal(pigeon, hole) { return (pigeon - 1) * size + hole }

function chain(  k) {
    printf "p cnf %d %d\n1 0\n", size, size + 1 > formula
    for (k = 1; k < size; k++) printf "-%d %d 0\n", k, k + 1 > formula
    printf "-%d 0\n", size > formula
    last = 1
    for (k = 2; k <= size; k++) {
        printf "%d %d 0 %d %d 0\n", size + k, k, last, k > proof
        last = size + k
    }
    printf "%d 0 %d %d 0\n", 2 * size + 1, last, size + 1 > proof
}

# One step of the proof, which is needed.
function keep(step) {
    print step > proof
    print step > left
}

function sparse(  k, j, others, rest, last, before) {
    printf "p cnf %d %d\n1 0\n", size + 8, size + 1 > formula
    for (k = 1; k < size; k++) printf "-%d %d 0\n", k, k + 1 > formula
    printf "-%d 0\n", size > formula
    for (k = 1; k <= 8; k++) others = others size + k " "
    id = size + 1
    last = 1
    for (k = 2; k <= size; k++) {
        before = last
        last = ++id
        keep(last " " k " 0 " k " " before " 0")
        rest = " " k " " others "0 " k " " before " 0"
        for (j = 1; j <= 499; j++) print id + j rest > proof
        for (j = 1; j <= 499; j++) print last " d " id + j " 0" > proof
        id += 499
    }
    keep(id + 1 " 0 " last " " size + 1 " 0")
}

# The literals that put pigeons 1 to k in holes outside the set of bits.
function outside(k, set,  line, i, j) {
    line = ""
    for (j = 1; j <= size; j++)
        if (int(set / 2 ^ (j - 1)) % 2 == 0)
            for (i = 1; i <= k; i++) line = line literal(i, j) " "
    return line
}

function holes(  i, j, k, n, set, count, hints, none, all, own) {
    n = size
    printf "p cnf %d %d\n", (n + 1) * n, n + 1 + n * n * (n + 1) / 2 > formula
    for (i = 1; i <= n + 1; i++) {
        for (j = 1; j <= n; j++) printf "%d ", literal(i, j) > formula
        print "0" > formula
    }
    id = n + 1
    for (j = 1; j <= n; j++)
        for (k = 2; k <= n + 1; k++)
            for (i = 1; i < k; i++) {
                printf "-%d -%d 0\n", literal(i, j), literal(k, j) > formula
                apart[i, k, j] = ++id
            }
    fits_not[0] = 1
    for (set = 1; set < 2 ^ n; set++) {
        count = 0
        for (j = 1; j <= n; j++) count += int(set / 2 ^ (j - 1)) % 2
        k = count + 1
        own = outside(k, set)
        all = ""
        for (j = 1; j <= n; j++)
            if (int(set / 2 ^ (j - 1)) % 2) {
                hints = ""
                for (i = 1; i < k; i++) hints = hints apart[i, k, j] " "
                printf "%d %s-%d 0 %s%d 0\n", ++id, own, literal(k, j), hints, fits_not[set - 2 ^ (j - 1)] > proof
                all = all id " "
            }
        printf "%d %s0 %s%d 0\n", ++id, own, all, k > proof
        fits_not[set] = id
    }
}

function wide(  k, lits, hints, units) {
    printf "p cnf %d %d\n%d 0\n", 2 * size, 2 * size + 1, -2 * size > formula
    for (k = 1; k <= size; k++) {
        if (k == 1) printf "%d %d 0\n", 1, size + 1 > formula
        else printf "%d %d %d 0\n", k, -(size + k - 1), size + k > formula
        lits = lits k " "
        hints = hints k + 1 " "
    }
    for (k = 1; k <= size; k++) {
        printf "-%d 0\n", k > formula
        units = units size + 1 + k " "
    }
    printf "%d %s0 %s1 0\n%d 0 %s%d 0\n", 2 * size + 2, lits, hints, 2 * size + 3, units, 2 * size + 2 > proof
}

function sums(  k, hints) {
    printf "p cnf 1001 1001\n" > formula
    for (k = 1; k <= 1000; k++) printf "x-%d %d 0\n", k, k + 1 > formula
    printf "x1 1001 0\n" > formula
    for (k = 1; k <= 1000; k++) hints = hints k " "
    for (k = 1; k <= size; k++) printf "x %d -1 1001 0 %s0\n", 1001 + k, hints > proof
    printf "x %d 0 %d 1001 0\ni 1 0 %d 0\n", 1002 + size, 1001 + size, 1002 + size > proof
}

BEGIN {
    if (kind == "chain") chain()
    if (kind == "holes") holes()
    if (kind == "wide") wide()
    if (kind == "sums") sums()
    if (kind == "sparse") sparse()
}
