# Makes a log of a formula of clauses and a proof of chains over them: originals, then each step as an added clause.
# Set hints=1 for the proof's hints after each added clause, hints=0 for none. Reads the formula, then the proof.
FNR == 1 { file++ }
file == 1 && ($1 == "p" || $1 == "c") { next }
file == 1 { print "o", ++originals, $0; next }
# a chain: ID LITERALS 0 HINTS 0; a deletion: ID d IDS 0
$2 == "d" { for (i = 3; $i != 0; i++) print "d", $i, "0"; next }
{
    line = "a " $1
    for (i = 2; $i != 0; i++) line = line " " $i
    line = line " 0"
    if (hints) {
        line = line " l"
        for (i++; $i != 0; i++) line = line " " $i
        line = line " 0"
    }
    print line
}
