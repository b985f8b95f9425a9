#!/bin/sh
# Appends a second of a striped loglet over native loglets of three log servers on disks in memory: 10,000 entries of 100 bytes through each of three kinds, and more.
#
# usage: bench/striped/run.sh PROGRAM [RUNS]
#
# PROGRAM is the built `benches`. RUNS is how often each row is measured (7).
set -eu

program=$1
work_word=striped
runs=${2:-7}
. "$(dirname "$0")/../appends.sh"

echo "| kind | appends | bytes each | appends a second, best | median |"
echo "|---|---|---|---|---|"
measure striped2 10000 100
measure striped8 10000 100
measure nested 10000 100
measure striped2 20000 100
measure striped8 20000 100
measure nested 20000 100
measure striped8 10000 1000
