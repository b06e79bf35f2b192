#!/bin/sh
# broken.sh [rooms] [seed]: builds; puts every call to damaged rooms, damaged holders among them, shots to damaged tables, and every set of
# refusals together to all, in each clock mode; for each prints a line for the shots, then for each one for the limiters.
set -eu
here=$(cd "$(dirname "$0")" && pwd)
"$here/build.sh"
"$here/target/judge" broken "${1:-1000000}" "${2:-1}"
