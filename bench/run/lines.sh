# Read by the scripts that measure runs. Each says in $program what is measured, and has the folder $work.

default_shelf=file,native3,striped2,native5

# script LINES NODES [BARRIER]: the lines of a script. Each node has a session of its own, whose lines add to one of sixteen keys; nodes take
# lines in turn, and every hundredth line, or every so many, is followed by a barrier.
script() {
    awk -v n="$1" -v nodes="$2" -v barrier="${3:-100}" 'BEGIN {
        for (i = 1; i <= n; i++) {
            k = 1 + (i - 1) % nodes
            print "on n" k " s" k " add k" (i * 7) % 16 " " i % 100
            if (i % barrier == 0) print "barrier"
        }
    }'
}

# words COMMAND SHELF NODES LINES: the words of the command line
words() {
    case $1 in
        run) echo "run --shelf $2 --nodes $3" ;;
        make) echo "make --seed 1 --lines $4 --shelf $2 --nodes $3" ;;
    esac
}

# each_row MEASURE SHELF..: calls `MEASURE COMMAND SHELF NODES LINES FILE LEAST EMPTY` for each row of a table over these shelves: FILE is what
# the program reads, which is the script of so many lines for `run`, and nothing for `make`. The least that the command can do has
# LEAST lines, and reads EMPTY.
each_row() {
    measure=$1
    shift
    : > "$work/empty"
    for command in run make; do
        for shelf in "$@"; do
            for nodes in 1 4 8; do
                for n in 1000 5000 15000; do
                    case $command in
                        run) script "$n" "$nodes" > "$work/script"; least=0 ;;
                        make) : > "$work/script"; least=1 ;;
                    esac
                    "$measure" "$command" "$shelf" "$nodes" "$n" "$work/script" "$least" "$work/empty"
                done
            done
        done
    done
}
