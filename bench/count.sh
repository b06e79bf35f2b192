#!/bin/sh
# count.sh [calls] [increments|shots|expired|clocks|parties]: instructions for a call, which no load on the machine changes: what twice as many
# calls execute more, less what is executed where none is made. `clocks` has increments in either clock mode, the others have milliseconds;
# `parties` has increments of one party's keys and of the same keys split between two, the others are of one party. By
# valgrind, which counts the calls alone; where COUNT names a command, by that: it runs its arguments and prints how many instructions
# they executed, as its last line. Needs a benchmark built by build.sh; of a contestant that it does not have, or that fails, it tells `-`.
set -eu
cd "$(dirname "$0")"
calls=${1:-20000}
executed() {
    if [ -n "${COUNT:-}" ]; then
        told=$($COUNT target/bench one "$@") && echo "$told" | tail -n 1
    else
        told=$(valgrind --tool=callgrind --callgrind-out-file=/dev/null --toggle-collect="*Contestant>::run" target/bench one "$@" 2>&1) &&
            echo "$told" | sed -n 's/.*Collected : //p'
    fi
}
# what twice as many calls of a contestant execute more: NAME WHAT..
more() {
    once=$(executed "$@" "$calls") && twice=$(executed "$@" $((2 * calls))) && echo $((twice - once))
}
# prints what is counted, then each contestant with its instructions for a call: HEADING "NAME.." WHAT..
row() {
    line=$1
    names=$2
    shift 2
    idle=$(more nothing "$@") || { echo "the instructions could not be counted" >&2; exit 1; }
    for name in $names; do
        if made=$(more "$name" "$@"); then each=$(((made - idle) / calls)); else each=-; fi
        line="$line  $name $each"
    done
    echo "$line"
}
increments() {
    for limiter in absolute suppressed; do
        for live in 10 100 298 512; do
            row "$limiter ring $live" "twin archive trusting original" $limiter $live
        done
    done
}
shots() {
    for keys in 40 64; do
        for live in 10 100; do
            of="shots of $keys controllers, ring $live"
            row "$of" "twin archive twin-shot archive-shot" rising $keys $live
            row "$of, held" "twin-shot archive-shot" held $keys $live
            row "$of, held last" "twin-shot archive-shot" last $keys $live
        done
    done
}
expired() {
    for call in "absolute inc" "absolute get" "absolute is_allowed" \
        "suppressed inc" "suppressed get" "suppressed get_suppression_factor"; do
        for live in 10 100 512; do
            row "expired, $call, ring $live" "twin archive trusting" expired $call $live
        done
    done
}
clocks() {
    for limiter in absolute suppressed; do
        for live in 10 100 298 512; do
            row "$limiter ring $live, milliseconds" "twin archive trusting original" $limiter $live
            row "$limiter ring $live, nanoseconds" "twin archive trusting original" nanoseconds $limiter $live
        done
    done
}
parties() {
    for limiter in absolute suppressed; do
        for keys in 40 64; do
            for live in 10 100; do
                row "$limiter, $keys keys, ring $live, one party" "twin archive trusting original" one-party $limiter $keys $live
                row "$limiter, $keys keys, ring $live, two parties" "twin archive trusting original" two-parties $limiter $keys $live
            done
        done
    done
}
case ${2:-all} in
increments | shots | expired | clocks | parties) $2 ;;
all)
    increments
    shots
    expired
    ;;
*)
    echo "increments, shots, expired, clocks or parties" >&2
    exit 2
    ;;
esac
