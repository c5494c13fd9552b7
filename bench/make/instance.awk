# Writes a formula: awk -v kind=KIND -v size=N -v seed=S [-v form=x] -f make_instance.awk
# form=x writes the parities of ladders and systems as x-lines; else they are written as clauses.
# random:  N variables, 4.26 N clauses of three different variables.
# holes:   N + 1 pigeons and N holes.
# parity:  N parities of three variables over N variables, and their sum turned round: inconsistent.
# ladder:  a circular ladder of N rungs, a variable for each edge, and at each vertex the clauses of a parity of its three edges;
#          one vertex alone is odd, so no values meet them (a formula of Urquhart's kind).
# system:  6 N / 5 parities of three variables over N variables, with any right sides: almost always inconsistent.
# planted: N variables, N parities of three variables and 2 N clauses of three, met by hidden values.
# mixed:   N variables, N / 3 parities of three variables and 3 N clauses of three: some have values that meet them, some have none.
# chain:   N parities of three variables, each of which shares its last one with the next, which has it first.
# linked:  such a chain in which each parity's own variable comes before all that are shared.
# apart:   N parities of three variables, none of which two share.
# sparse:  N parities of three to five variables over 5 N / 4 variables, met by hidden values. These four are x-lines in each form.
function word() { state = (state * 16807) % 2147483647; return state }
function pick(n) { return 1 + int(word() / 2147483647 * n) }
function three(  i) {
    v[1] = pick(size)
    do v[2] = pick(size); while (v[2] == v[1])
    do v[3] = pick(size); while (v[3] == v[1] || v[3] == v[2])
}
function sign() { return word() % 2 ? 1 : -1 }
function random(  k) {
    printf "p cnf %d %d\n", size, int(4.26 * size)
    for (k = 0; k < int(4.26 * size); k++) { three(); print sign() * v[1], sign() * v[2], sign() * v[3], 0 }
}
function holes(  i, j, k) {
    printf "p cnf %d %d\n", (size + 1) * size, size + 1 + size * size * (size + 1) / 2
    for (i = 0; i <= size; i++) { for (j = 1; j <= size; j++) printf "%d ", i * size + j; print 0 }
    for (j = 1; j <= size; j++) for (i = 0; i <= size; i++) for (k = i + 1; k <= size; k++) print -(i * size + j), -(k * size + j), 0
}
function parity(  k, x) {
    printf "p cnf %d %d\n", size, size + 1
    for (k = 0; k < size; k++) {
        three()
        negative = word() % 2
        print "x" (negative ? -v[1] : v[1]), v[2], v[3], 0
        right += 1 + negative
        for (x = 1; x <= 3; x++) odd[v[x]] = !odd[v[x]]
    }
    # the sum of all of them with the other right side: that of a parity is 1 plus its negative literals
    line = ""
    for (x = 1; x <= size; x++) if (odd[x]) line = line (line == "" && right % 2 == 1 ? -x : x) " "
    print "x " line "0"
}
# the parity of a, b and c with this sum modulo two: as an x-line, or as the clauses that exclude the other values
function vertex(a, b, c, sum,  i, j, k) {
    if (form == "x") { print "x" (sum ? a : -a), b, c, 0; return }
    for (i = 0; i < 2; i++) for (j = 0; j < 2; j++) for (k = 0; k < 2; k++)
        if ((i + j + k) % 2 != sum) print (i ? -a : a), (j ? -b : b), (k ? -c : c), 0
}
function ladder(  i, before) {
    printf "p cnf %d %d\n", 3 * size, (form == "x" ? 2 : 8) * size
    for (i = 1; i <= size; i++) {
        before = i > 1 ? i - 1 : size
        vertex(i, size + i, size + before, i == 1)
        vertex(i, 2 * size + i, 2 * size + before, 0)
    }
}
function system_of(  k, count) {
    count = int(6 * size / 5)
    printf "p cnf %d %d\n", size, (form == "x" ? 1 : 4) * count
    for (k = 0; k < count; k++) { three(); vertex(v[1], v[2], v[3], word() % 2) }
}
function planted(  k, x, sum, met) {
    printf "p cnf %d %d\n", size, 3 * size
    for (x = 1; x <= size; x++) value[x] = word() % 2
    for (k = 0; k < size; k++) {
        three()
        sum = (value[v[1]] + value[v[2]] + value[v[3]]) % 2
        print "x" (sum ? v[1] : -v[1]), v[2], v[3], 0
    }
    for (k = 0; k < 2 * size; k++) {
        three()
        met = 0
        for (x = 1; x <= 3; x++) { s[x] = sign(); if ((s[x] > 0) == value[v[x]]) met = 1 }
        if (!met) s[1] = -s[1]
        print s[1] * v[1], s[2] * v[2], s[3] * v[3], 0
    }
}
function mixed(  k) {
    printf "p cnf %d %d\n", size, int(size / 3) + 3 * size
    for (k = 0; k < int(size / 3); k++) { three(); print "x" sign() * v[1], v[2], v[3], 0 }
    for (k = 0; k < 3 * size; k++) { three(); print sign() * v[1], sign() * v[2], sign() * v[3], 0 }
}
function chain(  k) {
    print "p cnf", 2 * size + 1, size
    for (k = 0; k < size; k++) print "x" 2 * k + 1, 2 * k + 2, 2 * k + 3, 0
}
function linked(  k) {
    print "p cnf", 2 * size + 1, size
    for (k = 1; k <= size; k++) print "x" k, size + k, size + k + 1, 0
}
function apart(  k) {
    print "p cnf", 3 * size, size
    for (k = 0; k < size; k++) print "x" 3 * k + 1, 3 * k + 2, 3 * k + 3, 0
}
function sparse(  k, i, n, x, vars, sum, line) {
    vars = int(5 * size / 4)
    print "p cnf", vars, size
    for (x = 1; x <= vars; x++) value[x] = word() % 2
    for (k = 0; k < size; k++) {
        n = 2 + pick(3)
        split("", taken)
        sum = 0
        line = ""
        for (i = 0; i < n; i++) {
            do x = pick(vars); while (x in taken)
            taken[x]
            sum += value[x]
            line = line x " "
        }
        print "x" (sum % 2 ? "" : "-") line "0"
    }
}
BEGIN {
    state = seed + 12345
    for (i = 0; i < 10; i++) word()
    if (kind == "random") random()
    if (kind == "holes") holes()
    if (kind == "parity") parity()
    if (kind == "ladder") ladder()
    if (kind == "system") system_of()
    if (kind == "planted") planted()
    if (kind == "mixed") mixed()
    if (kind == "chain") chain()
    if (kind == "linked") linked()
    if (kind == "apart") apart()
    if (kind == "sparse") sparse()
}
