# Read by the scripts that time the program on scripts. Each says in $program what is run and in $runs how often. The last run's
# text is left in $work.
. "$(dirname "$0")/../work.sh"

# microseconds STATUS SCRIPT WORD..: how long the runs of the program with these words on a script took, in microseconds, the least first.
# Each must end with that status.
microseconds() {
    wanted=$1
    script=$2
    shift 2
    for _ in $(seq "$runs"); do
        begin=$(date +%s%N)
        "$program" "$@" < "$script" > "$work/text" && status=0 || status=$?
        end=$(date +%s%N)
        [ "$status" -eq "$wanted" ] || { echo "$* ended with status $status" >&2; exit 1; }
        echo $(((end - begin) / 1000))
    done | sort -n
}
