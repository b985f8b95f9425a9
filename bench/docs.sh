#!/bin/sh
# docs.sh [PROGRAM]: runs each command of README.md, docs/MANUAL.md, docs/GUIDE.md, docs/EMBED.md and docs/THEOREM.md, compares what it prints with
# what stands below it, compares each excerpt of code with its file and DEFINITIONS.md with the comments of the definitions, follows each link to
# a file, and looks for names that aren't in the repository. The status is 0 where all agree.
# PROGRAM is the built delos_sim. Without it `rt try --cases` builds one, with no proof, in minutes, and runs it with the words and the standard input of each
# command; with it the commands run as they stand, PROGRAM in the place of `rt try`. The gate, `rt ci`, isn't run here.
# How blocks are marked is said at the head of docs.py.
set -eu
exec python3 "$(dirname "$0")/docs.py" "$@"
