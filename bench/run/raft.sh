#!/bin/sh
# raft.sh [COMMANDS [RUNS]]: commands a second of hashicorp/raft in memory (raft.go), with 1, 4 and 8 nodes in one process, and one command
# in an entry, or 16. It wants Debian's golang-go and golang-github-hashicorp-raft-dev.
#
# COMMANDS is how many commands are taken (15,000), RUNS how often each is measured (7). The time is from the leader's election on.
set -eu
commands=${1:-15000}
runs=${2:-7}
here=$(dirname "$0")
. "$here/../work.sh"
GO111MODULE=off GOPATH=/usr/share/gocode GOCACHE="$work/go" go build -o "$work/raft" "$here/raft.go"

# rates NODES BATCH: commands a second, by the best time and by the median
rates() {
    for _ in $(seq "$runs"); do
        "$work/raft" "$1" "$commands" "$2" > "$work/out"
        read -r taken micros < "$work/out"
        [ "$taken" = "$commands" ] || { echo "raft took $taken of $commands commands" >&2; exit 1; }
        echo "$micros"
    done | sort -n > "$work/times"
    best=$(sed -n 1p "$work/times")
    median=$(sed -n "$(((runs + 1) / 2))p" "$work/times")
    echo "$((commands * 1000000 / best)) | $((commands * 1000000 / median))"
}

echo "| what | nodes | commands in an entry | commands a second, best | median |"
echo "|---|---|---|---|---|"
for nodes in 1 4 8; do
    for batch in 1 16; do
        echo "| hashicorp/raft | $nodes | $batch | $(rates "$nodes" "$batch") |"
    done
done
