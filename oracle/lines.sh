#!/bin/sh
# lines.sh desk|shots OTHER [inputs] [lines] [seed]: compares another program of that name with the twin's, byte for byte. Of 400 lines or
# more, one input in eight fills a ring.
set -eu
here=$(cd "$(dirname "$0")" && pwd)
program=$1
other=$2
inputs=${3:-200}
lines=${4:-400}
seed=${5:-1}
case $program in
desk) makes=desk ;;
shots) makes=shot-lines ;;
*) echo "no such program: $program" && exit 2 ;;
esac
work=$here/target/$program
mkdir -p "$work"
differed=0
i=0
while [ $i -lt "$inputs" ]; do
    "$here/target/judge" $makes "$lines" $((seed * 1000003 + i)) > "$work/input"
    "$here/../twin/target/$program" < "$work/input" > "$work/twin"
    "$other" < "$work/input" > "$work/other" || true
    if ! cmp -s "$work/twin" "$work/other"; then
        differed=$((differed + 1))
        cp "$work/input" "$work/differs"
    fi
    i=$((i + 1))
done
echo "$inputs $program inputs of $lines lines, $differed differed"
test $differed = 0
