#!/bin/sh
# desk.sh OTHER [inputs] [lines] [seed]: compares another desk program with the twin's, byte for byte.
exec "$(dirname "$0")/lines.sh" desk "$@"
