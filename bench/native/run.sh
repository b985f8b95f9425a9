#!/bin/sh
# Appends a second of a native loglet over log servers on disks in memory: 10,000 entries of 100 bytes over 3 servers and over 7, and more.
#
# usage: bench/native/run.sh PROGRAM [RUNS]
#
# PROGRAM is the built `benches`. RUNS is how often each row is measured (7).
set -eu

program=$1
work_word=native
runs=${2:-7}
. "$(dirname "$0")/../appends.sh"

echo "| servers | appends | bytes each | appends a second, best | median |"
echo "|---|---|---|---|---|"
measure 1 10000 100
measure 3 10000 100
measure 7 10000 100
measure 3 20000 100
measure 7 20000 100
measure 3 10000 1000
measure 7 10000 1000
