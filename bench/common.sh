# What the measuring scripts of this folder share. It is sourced, not run.
here=$(cd "$(dirname "${BASH_SOURCE[0]}")" && pwd)
launcher=$here/../bin/cxsat
program=$here/../crates/cxsat/out/cxsat
examples=$here/../examples
work=$(mktemp -d)
trap 'rm -rf "$work"' EXIT
# `cryptominisat5` with its bounds on matrices lifted.
lifted=(--maxmatrixrows 1000000 --maxmatrixcols 1000000 --maxnummatrices 1000000)

# Ends the script with 2 where one of these commands is not there.
need() {
    local name
    for name in "$@"; do
        command -v "$name" > /dev/null || { echo "$(basename "$0"): $name is not there: apt-get install minisat cryptominisat cadical valgrind time gcc" >&2; exit 2; }
    done
}

# Has the program built before anything is measured. The launcher's own time is none of the program's.
build() {
    "$launcher" check "$examples/triangle.cnf" "$examples/triangle.xlrup" > "$work/answer"
    grep -qx 's VERIFIED' "$work/answer"
}

# The processor time of a command in seconds. What it prints is in $work/answer.
seconds() {
    local TIMEFORMAT=%U
    { time "$@" > "$work/answer" 2>&1; } 2>&1
}

# Ends the script unless the last command that was timed printed this line.
answered() {
    grep -qx "$1" "$work/answer" || { echo "$(basename "$0"): wanted '$1', got:" >&2; head -n 5 "$work/answer" >&2; exit 1; }
}

# A formula of a family into $work/formula: by which script of make/ (awk: instance.awk, x: its parities as x-lines, python:
# families.py), its kind, size and seed.
draw() {
    case $1 in
        awk | x) awk -v kind="$2" -v size="$3" -v seed="$4" -v form="$1" -f "$here/make/instance.awk" ;;
        python) "$here/make/families.py" "$2" "$3" "$4" ;;
    esac > "$work/formula"
}

# The first number over the second.
ratio() {
    awk -v a="$1" -v b="$2" 'BEGIN { if (b > 0) printf "%.2f", a / b; else printf "-" }'
}

megabytes() {
    cat "$@" | wc -c | awk '{ printf "%.1f MB", $1 / 1e6 }'
}

# One row of the table: what is measured, on what, cxsat, what is beside it, and cxsat's over the other's.
row() {
    printf '| %s | %s | %s | %s | %s |\n' "$@"
}

# The files of a program that `programs/` holds, into a folder, each under its name without `.in`: a Rattle file may be
# nowhere in the repository but in a crate that the gate proves.
lay_out() {
    local name
    (cd "$here/programs/$1" && find . -name '*.in') | while read -r name; do
        mkdir -p "$2/$(dirname "$name")"
        cp "$here/programs/$1/$name" "$2/${name%.in}"
    done
}

# Seconds, megabytes and status of a command, as "S MB STATUS"; its output is in $work/answer. One that was cut off at
# $limit seconds has taken them at the least. Where $clock is '%U %S', the system's time counts beside the user's.
run() {
    local status=0 taken TIMEFORMAT=${clock:-%U}
    taken=$({ time timeout "$limit" /usr/bin/time -f %M -o "$work/time" "$@" > "$work/answer" 2>&1; } 2>&1) || status=$?
    if [ "$status" = 124 ]; then
        echo "$limit - $status"
    else
        tail -n 1 "$work/time" | awk -v taken="$taken" -v status="$status" '{
            if (split(taken, part, " ") > 1) taken = sprintf("%.3f", part[1] + part[2])
            printf "%s %.0f %s\n", taken, $1 / 1000, status
        }'
    fi
}

# The least user and system time of a command in so many runs, in seconds; $2 is the exit status that it must have.
least() {
    local runs=$1 status=$2 best=999 took had run TIMEFORMAT='%U %S'
    shift 2
    for ((run = 0; run < runs; run++)); do
        rm -f "$work/out" "$work/copy"
        had=0
        took=$({ time "$@" > "$work/output" 2>&1 || had=$?; echo "$had" > "$work/status"; } 2>&1 | awk '{ print $1 + $2 }')
        [ "$(cat "$work/status")" = "$status" ] || { echo "$*: status $(cat "$work/status")" >&2; exit 1; }
        best=$(awk -v a="$best" -v b="$took" 'BEGIN { print a < b ? a : b }')
    done
    echo "$best"
}

# The least processor times of two functions of the script in fifteen runs of each, turn about: the user's and the system's together,
# since the system tells these apart by samples, and only their sum is exact in short runs. With each function comes a line that it must
# print, and before both a file that the first one makes, or any name where it makes none.
least_of_both() {
    local made=$1 first=$2 line=$3 second=$4 other=$5 TIMEFORMAT='%U %S'
    for _ in {1..15}; do
        # To empty a file that is there takes the system up to a tenth of the time, and is no part of the work.
        rm -f "$made"
        { time "$first" > "$work/answer" 2>&1; } 2>&1
        answered "$line"
        { time "$second" > "$work/answer" 2>&1; } 2>&1
        answered "$other"
    done | awk '{ taken = $1 + $2; which = NR % 2; if (NR < 3 || taken < best[which]) best[which] = taken } END { printf "%.3f %.3f", best[1], best[0] }'
}

# Copies of these crates, without their wrong bodies, and their lines of crates.txt: a program of `programs/` uses them. What
# a check of them kept goes along, so that only what changed since is proved again.
bring() {
    local crate
    for crate in "$@"; do
        mkdir -p "$work/crates"
        cp -a "$here/../crates/$crate" "$work/crates/"
        rm -rf "$work/crates/$crate/must-fail"
        grep "^$crate:" "$here/../crates.txt" | head -n 1 >> "$work/crates.txt"
    done
}

# These crates and all below them, lowest first.
below() {
    awk -v wanted="$*" '
        BEGIN { count = split(wanted, names, " "); for (k = 1; k <= count; k++) need[names[k]] }
        /^[a-z0-9_]+:/ { line[++lines] = $0 }
        END {
            for (k = lines; k; k--) {
                split(line[k], part, ":")
                count = part[1] in need ? split(part[2], names, " ") : 0
                for (d = 1; d <= count; d++) need[names[d]]
            }
            for (k = 1; k <= lines; k++) { split(line[k], part, ":"); if (part[1] in need) print part[1] }
        }' "$here/../crates.txt"
}

# Lays a program of `programs/` out over copies of crates and goes into its folder: its name, and the crates that it names itself.
stand_on() {
    local name=$1 crates
    shift
    mapfile -t crates < <(below "$@")
    bring "${crates[@]}"
    echo "$name: $*" >> "$work/crates.txt"
    mkdir -p "$work/crates/$name"
    lay_out "$name" "$work/crates/$name"
    cd "$work/crates/$name"
}

# Proves, builds and runs the program of this folder once, on these words; what it prints is in $work/run.log.
first_run() {
    rt run -- "$@" > "$work/run.log" 2>&1 || { cat "$work/run.log" >&2; exit 1; }
}

# Ends the script where two solvers give different answers, none of which was cut off: what was solved, the peer's name, the two statuses.
agree() {
    [ "$3" = "$4" ] || [ "$3" = 124 ] || [ "$4" = 124 ] || { echo "$(basename "$0"): $1: cxsat ended with $3, $2 with $4" >&2; exit 1; }
}
