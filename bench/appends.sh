# Read by the scripts that measure appends to a loglet. Each says in $program the built `benches`, and in $work_word which of its works appends: the words
# behind that are the loglet, how many entries, and the bytes of each, and it prints how many entries were placed.
. "$(dirname "$0")/../rates.sh"

# append APPENDS LOGLET BYTES: one run
append() {
    "$program" "$work_word" "$2" "$1" "$3"
}

# measure LOGLET APPENDS BYTES: one row
measure() {
    echo "| $1 | $2 | $3 | $(rates "$2" append "$2" "$1" "$3") |"
}
