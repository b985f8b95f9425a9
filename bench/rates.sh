# Read by the scripts that measure a rate. Each says how often a row is measured in $runs.
#
# A time is that of a whole process: the best of the runs less the best of as many runs with nothing to do, and the
# median less the median.
. "$(dirname "$0")/../work.sh"

# nanoseconds PRINTED RUN COUNT ARG..: how long `RUN COUNT ARG..` ran, which must print that number
nanoseconds() {
    printed=$1
    shift
    begin=$(date +%s%N)
    "$@" >"$work/out"
    end=$(date +%s%N)
    [ "$(cat "$work/out")" = "$printed" ] || { echo "$* printed $(cat "$work/out")" >&2; exit 1; }
    echo $((end - begin))
}

# at PLACE FILE: the number at that place of the sorted file
at() {
    sort -n "$2" | sed -n "$1p"
}

# rates PRINTED RUN COUNT ARG..: what `RUN COUNT ARG..` prints, a second: by the best times and by the medians
rates() {
    all=$1
    run=$2
    count=$3
    shift 3
    : >"$work/none"
    : >"$work/all"
    i=0
    while [ $i -lt "$runs" ]; do
        nanoseconds 0 "$run" 0 "$@" >>"$work/none"
        nanoseconds "$all" "$run" "$count" "$@" >>"$work/all"
        i=$((i + 1))
    done
    middle=$(((runs + 1) / 2))
    best=$(($(at 1 "$work/all") - $(at 1 "$work/none")))
    median=$(($(at $middle "$work/all") - $(at $middle "$work/none")))
    echo "$((all * 1000000 / (best / 1000))) | $((all * 1000000 / (median / 1000)))"
}
