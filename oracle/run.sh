#!/bin/sh
# run.sh [calls] [seed] [few]: builds, checks the worked examples of desk and shots, compares, so many calls of one party and as many of two
# in each clock mode, and a tenth as many lines read back; prints a line for these, then for each clock mode one for the shots, for each one
# for the rings that suffice, one for the default settings, one for pairs of histories in which one party's calls are the same, one for the
# calls of two parties, and one for the limiters of one party. With `few`, most short histories are left out.
set -eu
here=$(cd "$(dirname "$0")" && pwd)
"$here/build.sh"
"$here/../twin/target/desk" < "$here/../twin/example.input" | cmp - "$here/../twin/example.output"
"$here/../twin/target/shots" < "$here/../twin/shots.input" | cmp - "$here/../twin/shots.output"
"$here/target/judge" "${1:-10000000}" "${2:-1}" ${3:+"$3"}
