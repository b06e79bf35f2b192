#!/bin/sh
# shots.sh OTHER [inputs] [lines] [seed]: compares another shots program with the twin's, byte for byte.
exec "$(dirname "$0")/lines.sh" shots "$@"
