# Writes the formula of SIZE queens on a board of SIZE rows and columns, none of which attacks another: awk -v size=SIZE -f queens.awk
# Variable SIZE * (r - 1) + c says that a queen is in row r and column c.
function at(row, column) { return size * (row - 1) + column }
# Not both of two fields have a queen.
function apart(row, column, other_row, other_column) { clauses[++count] = -at(row, column) " " (-at(other_row, other_column)) " 0" }
BEGIN {
    for (row = 1; row <= size; row++) {
        line = ""
        for (column = 1; column <= size; column++) line = line at(row, column) " "
        clauses[++count] = line "0"
    }
    for (row = 1; row <= size; row++) for (column = 1; column <= size; column++) {
        for (to = column + 1; to <= size; to++) apart(row, column, row, to)
        for (down = row + 1; down <= size; down++) {
            apart(row, column, down, column)
            if (column + down - row <= size) apart(row, column, down, column + down - row)
            if (column - down + row >= 1) apart(row, column, down, column - down + row)
        }
    }
    print "p cnf", size * size, count
    for (k = 1; k <= count; k++) print clauses[k]
}
