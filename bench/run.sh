#!/bin/sh
# run.sh [increments repetitions]: proves the limiters and builds their archive, builds the benchmark and prints its tables.
# run.sh lines [lines repetitions]: the same for one table alone, the last one: what reading back a line costs that desk prints, a million
# lines of all answers, beside what desk takes for such a line. DESK names a desk program that is built already (crates/desk/out/desk),
# which is timed there too.
# ARCHIVE names an archive that is built already; TRYPEMA_SRC names the folder of the original source.
set -eu
here=$(cd "$(dirname "$0")" && pwd)
if [ -z "${ARCHIVE:-}" ]; then
    mkdir -p "$here/target"
    "$here/../archive" > "$here/target/archive.log" 2>&1 || { cat "$here/target/archive.log"; exit 1; }
    ARCHIVE=$here/../target/staticlib/libabi.a
fi
export ARCHIVE
"$here/build.sh"
"$here/target/bench" "$@"
